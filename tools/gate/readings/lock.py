"""The lock text of a graph: a line for each crate, and where it stands."""

from readings.versions import precedence


def lock_order(crate):
    return crate.name.encode(), precedence(crate.read_version), crate.id.encode()


def lock_line(crate):
    """Name, version and source, or the folder of a crate without one."""
    source = crate.folder() if crate.source_text is None else crate.source_text
    return ("%s %s %s" % (crate.name, crate.version, source)).encode()


class Lock:
    """The text, and the range of the line of each crate by its place."""

    def __init__(self, graph):
        lines, start, self.spans = [], 0, {}
        for crate in sorted(graph.crates, key=lock_order):
            line = lock_line(crate)
            self.spans[crate.place] = start, start + len(line)
            start += len(line) + 1
            lines.append(line + b"\n")
        self.text = b"".join(lines)

    def span_of(self, crates):
        """From the first line of some crates to the last one's end."""
        spans = [self.spans[crate.place] for crate in crates]
        return min(start for start, _ in spans), max(end for _, end in spans)
