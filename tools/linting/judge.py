"""A session, and its recording if there is one, judged as a whole."""
from . import against, known, meaning, recording, session, toml_places
from .findings import Findings


def judge_session(name, data):
    """The findings about a session, and its plan, or None where it is no TOML."""
    findings = Findings(name)
    if len(data) > known.LONGEST_SESSION:
        message = "%d bytes, and at most %d are read" % (len(data), known.LONGEST_SESSION)
        findings.error(None, "", message, "too long: session")
    try:
        document = toml_places.read(data)
    except toml_places.BadToml as bad:
        findings.error((bad.line, bad.column), "", "no TOML: " + bad.message, "session: NotToml")
        return findings, None
    plan = session.Judge(findings, document).judge()
    meaning.judge(findings, plan)
    return findings, plan


def judge_all(session_name, session_data, events_name=None, events_data=None):
    """The findings about a session, those about a recording if there is one, and the plan."""
    findings, plan = judge_session(session_name, session_data)
    if events_data is None:
        return findings, None, plan
    told = Findings(events_name)
    devices = plan.devices if plan else []
    first = devices[0].get("path") if devices else None
    found = recording.read(told, events_data, first, {device.get("path"): device.said for device in devices})
    if plan:
        against.judge(findings, told, plan, found)
    return findings, told, plan


def judge(session_name, session_data, events_name=None, events_data=None):
    """The findings about a session, and those about a recording, if there is one."""
    return judge_all(session_name, session_data, events_name, events_data)[:2]
