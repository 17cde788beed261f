"""What the page owes to those who see little, or use a screen reader or keys alone: rules of WCAG 2.1 by the names that axe-core gives them, written here since
Debian has no axe-core; and the browser's own tree, which is what a screen reader is given."""
from looked_at import equal

# What the rules are written in.
WORDS = """
const visible = (e) => e.checkVisibility({ visibilityProperty: true }) && !e.closest('[aria-hidden=true]');
const all = (selector) => [...document.querySelectorAll(selector)].filter(visible);
const letters = (text) => text.toLowerCase().replace(/[^a-z]+/g, ' ').trim();
const byIds = (e, attribute) => (e.getAttribute(attribute) || '').split(' ').filter(Boolean).map((id) => document.getElementById(id));
const nameOf = (e) => (byIds(e, 'aria-labelledby').map((one) => one && one.textContent).join(' ') || e.getAttribute('aria-label') || '').trim();
const canFocus = 'a[href], button, input, select, textarea, summary, [tabindex]';
const ownText = (e) => [...e.childNodes].some((node) => node.nodeType === 3 && node.data.trim() !== '');
const luminance = (color) => {
  const [r, g, b] = color.match(/[0-9.]+/g).map((part) => part / 255).map((part) => (part <= 0.04045 ? part / 12.92 : ((part + 0.055) / 1.055) ** 2.4));
  return 0.2126 * r + 0.7152 * g + 0.0722 * b;
};
const ground = (e) => {
  let at = e;
  while (at && /rgba\\(0, 0, 0, 0\\)/.test(getComputedStyle(at).backgroundColor)) at = at.parentElement;
  return getComputedStyle(at || document.documentElement).backgroundColor;
};
const contrast = (e, part) => {
  const [bright, dark] = [getComputedStyle(e, part).color, ground(e)].map(luminance).sort((a, b) => b - a);
  return (bright + 0.05) / (dark + 0.05);
};
const LANDMARKS = 'header, main, footer, nav, [role=search], section[aria-label], section[aria-labelledby], [role=region]';
"""

# Each is an expression of the elements that break a rule.
RULES = {
    "button-name, link-name, summary-name": "all('button, a[href], summary').filter((e) => !nameOf(e) && !e.textContent.trim())",
    "label, select-name": "all('input, select, textarea').filter((e) => !nameOf(e) && ![...e.labels].some((label) => label.textContent.trim()))",
    "aria-progressbar-name, role-img-alt, canvas": "all('progress, canvas, [role=img], [role=application]').filter((e) => !nameOf(e))",
    "svg-img-alt": "[...document.querySelectorAll('svg')].filter((e) => e.getAttribute('aria-hidden') !== 'true' && !nameOf(e))",
    "label-content-name-mismatch": "all('button[aria-label]').filter((e) => !letters(e.getAttribute('aria-label')).includes(letters(e.textContent)))",
    "duplicate-id": "[...document.querySelectorAll('[id]')].filter((e) => document.querySelectorAll('#' + CSS.escape(e.id)).length > 1)",
    "aria-valid-attr-value": "['aria-controls', 'aria-describedby', 'aria-labelledby', 'for', 'list'].flatMap((name) =>"
                             " [...document.querySelectorAll(`[${name}]`)].filter((e) => byIds(e, name).includes(null)))",
    "aria-roles": "[...document.querySelectorAll('[role]')].filter((e) => !['application', 'group', 'img', 'region', 'search', 'status'].includes(e.getAttribute('role')))",
    "aria-hidden-focus": "[...document.querySelectorAll('[aria-hidden=true]')].filter((e) => e.matches(canFocus) || e.querySelector(canFocus))",
    "nested-interactive": "all('button, a[href], summary, [role=img]').filter((e) => e.querySelector(canFocus))",
    "html-has-lang, document-title": "[document.documentElement].filter((e) => !e.lang || !document.title)",
    "landmark-one-main": "document.querySelectorAll('main').length === 1 ? [] : [document.body]",
    "landmark-unique": "all(LANDMARKS).filter((e, k, found) => found.findIndex((one) => one.tagName === e.tagName && nameOf(one) === nameOf(e)) < k)",
    "region": "all('body *').filter((e) => ownText(e) && !['SCRIPT', 'STYLE'].includes(e.tagName) && !e.closest(`${LANDMARKS}, [role=status]`))",
    "heading-order, empty-heading": "all('h1, h2, h3').filter((e, k, found) => !e.textContent.trim() || (k > 0 && e.tagName[1] - found[k - 1].tagName[1] > 1))",
    "page-has-heading-one": "all('h1').length === 1 ? [] : [document.body]",
    "list, listitem, definition-list, dlitem": "[...document.querySelectorAll('ul > :not(li), ol > :not(li), :not(ul, ol) > li, dl > :not(dt, dd), :not(dl) > dt, :not(dl) > dd')]",
    "scrollable-region-focusable": "all('body *').filter((e) => /auto|scroll/.test(getComputedStyle(e).overflowX + getComputedStyle(e).overflowY)"
                                   " && (e.scrollHeight > e.clientHeight + 1 || e.scrollWidth > e.clientWidth + 1) && !e.matches(canFocus) && !e.querySelector(canFocus))",
    "tabindex": "[...document.querySelectorAll('[tabindex]')].filter((e) => e.tabIndex > 0)",
    "th-has-data-cells, empty-table-header, scope-attr-valid": "[...document.querySelectorAll('th')].filter((e) => !['row', 'col'].includes(e.scope) || !e.textContent.trim())",
    "meta-viewport": "[...document.querySelectorAll('meta[name=viewport]')].filter((e) => /user-scalable=no|maximum-scale/.test(e.content))",
    "target-size": "all('button, select, input, summary').filter((e) => e.type !== 'range' && (e.offsetHeight < 24 || e.offsetWidth < 24))",
    "color-contrast": "all('body *').filter((e) => ownText(e) && !e.disabled && !['SCRIPT', 'STYLE', 'OPTION'].includes(e.tagName) && contrast(e) < 4.5)",
    "color-contrast of a placeholder": "all('input[placeholder]').filter((e) => contrast(e, '::placeholder') < 4.5)",
}


def check_rules(page, what):
    """The named rules hold in what the page shows now, and each thing that takes the focus has a name in the browser's own tree."""
    for name, code in RULES.items():
        broken = page.run("(() => { %s return (%s).map((e) => e.outerHTML.slice(0, 120)); })()" % (WORDS, code))
        equal("%s: %s" % (what, name), broken, [])
    unnamed = []
    for node in page.ask("Accessibility.getFullAXTree")["nodes"]:
        told = {one["name"]: one["value"].get("value") for one in node.get("properties", [])}
        name = node.get("name", {}).get("value", "").strip()
        if told.get("focusable") and (node["ignored"] or not name):
            unnamed.append((node.get("role", {}).get("value"), node.get("backendDOMNodeId")))
    equal("%s: what takes the focus without a name" % what, unnamed, [])
