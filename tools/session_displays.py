"""The displays of a session, from what dumpsys tells."""
from session_text import comment

MOST_DISPLAYS, MOST_PIXELS = 4, 16384


class Displays:
    """The displays of a session: for each number of Android its place, extent and turn."""

    def __init__(self, dumps, paths, given, said):
        self.extents = {}
        wanted = {0} if given or not dumps else set()
        for dump in dumps:
            wanted |= {window.display for window in dump.windows if window.visible()}
            wanted |= {display for path, display in dump.device_displays.items() if path in paths}
            wanted |= {display for display in dump.focus if display in dump.viewports}
        order = sorted(wanted or {0})
        for display in order[MOST_DISPLAYS:]:
            said("display %d is left out: a session has at most %d displays" % (display, MOST_DISPLAYS))
        self.place = {display: place for place, display in enumerate(order[:MOST_DISPLAYS])}
        for display in self.place:
            self.extents[display] = self.extent(display, dumps, given if display == order[0] else None, said)

    def extent(self, display, dumps, given, said):
        """The natural width and height of a display and its turn, by the first dump that tells them."""
        if given and not any(display in dump.viewports for dump in dumps):
            return (*given, 0)
        told = [dump.viewports[display] for dump in dumps if display in dump.viewports]
        if told:
            if any(viewport != told[0] for viewport in told):
                said("display %d turns or changes; the session has it as the first dump does" % display)
            if not told[0].whole:
                said("display %d is scaled or cut; the session counts in the pixels of its windows" % display)
            return self.in_range(display, (*(given or told[0].natural()), told[0].rotation), said)
        for dump in dumps:
            if display in dump.sizes:
                said("display %d: no viewport tells its turn; 0 degrees are taken" % display)
                return self.in_range(display, (*dump.sizes[display], 0), said)
        frames = [window.frame for dump in dumps for window in dump.windows if window.display == display]
        width, height = (max((frame[k] for frame in frames), default=1) for k in (2, 3))
        if dumps:
            said("display %d: the dump tells no extent; %dx%d is taken from its windows" % (display, width, height))
        return self.in_range(display, (width, height, 0), said)

    def in_range(self, display, extent, said):
        if all(1 <= pixels <= MOST_PIXELS for pixels in extent[:2]):
            return extent
        said("display %d has %d by %d pixels; a session has 1 to %d" % (display, *extent[:2], MOST_PIXELS))
        return (*(min(max(pixels, 1), MOST_PIXELS) for pixels in extent[:2]), extent[2])

    def whole(self, display):
        """The rectangle of a display as it is turned."""
        width, height, rotation = self.extents[display]
        return (0, 0, height, width) if rotation in (90, 270) else (0, 0, width, height)

    def tables(self):
        lines = []
        for display, place in self.place.items():
            width, height, rotation = self.extents[display]
            lines += ["", "[[extra_display]]" if place else "[display]"]
            lines += [comment("Android's display %d" % display)] if place != display else []
            lines += ["width = %d" % width, "height = %d" % height] + (["rotation = %d" % rotation] if rotation else [])
        return lines
