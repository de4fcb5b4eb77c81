"""Configures Sphinx for the site, and gives anchors to what people look for: faults, keys, options, metrics.

On the pages of users, each row of a table whose first cell has only names in the form of code gets an anchor and an
entry of the index, and so does each option and command of a manual page. The search of Sphinx finds entries, too."""
import re

from docutils import nodes
from sphinx import addnodes
from sphinx.transforms import SphinxTransform

project, author = "kbfeed", "the kbfeed authors"
extensions = ["myst_parser"]
root_doc = "README"
exclude_patterns = []
myst_heading_anchors = 4
highlight_language = "none"
suppress_warnings = ["myst.header", "misc.highlighting_failure"]
html_theme = "alabaster"
html_title = "kbfeed"
html_theme_options = {"page_width": "1180px", "sidebar_width": "260px", "body_max_width": "auto", "body_min_width": "0",
                      "font_family": "sans-serif", "head_font_family": "sans-serif", "font_size": "16px"}
html_sidebars = {"**": ["searchbox.html", "front.html", "localtoc.html", "navigation.html"]}
html_static_path, templates_path = ["site.css"], ["templates"]
html_css_files = ["site.css"]
# The summaries of search results are fetched, which browsers refuse for files.
html_show_search_summary = False
html_copy_source = html_show_sourcelink = html_show_copyright = html_show_sphinx = False
# The folders of the pages with anchors, and how many characters the words between the names of a row may have.
ANCHORED, BETWEEN = ("docs/using/", "docs/formats/", "man/"), 40
OF_MANUAL = re.compile(r'<a class="permalink" href="#([^"]+)"><code class="(?:Fl|Ic|Cm)">([^<]+)</code></a>')


class Anchors(SphinxTransform):
    """Gives names an anchor, and an entry of the index that leads there. The domain of the index reads it later."""

    default_priority = 800

    def apply(self, **_):
        if not self.env.docname.startswith(ANCHORED):
            return
        for row in list(self.document.findall(nodes.row)):
            cell = row[0]
            names = [it.astext() for it in cell.findall(nodes.literal)]
            rest = cell.astext()
            for name in names:
                rest = rest.replace(name, "", 1)
            if names and not isinstance(row.parent, nodes.thead) and len(rest) <= BETWEEN:
                self.enter(cell, names)
        for raw in list(self.document.findall(nodes.raw)):
            found = OF_MANUAL.findall(raw.astext())
            if found:
                entries = [("single", name, anchor, "", None) for anchor, name in found]
                raw.parent.insert(raw.parent.index(raw), addnodes.index(entries=entries))

    def enter(self, cell, names):
        """Adds an anchor to a cell for each of its names, and an entry. An option is found without its value."""
        entries = []
        for name in [it.split(" ")[0] if it[0] == "-" else it for it in names]:
            anchor = nodes.make_id(name) or "name"
            while anchor in self.document.ids:
                anchor += "-"
            self.document.ids[anchor] = cell
            cell["ids"].append(anchor)
            # A semicolon would divide the entry.
            entries.append(("single", name.replace(";", ","), anchor, "", None))
        cell.insert(0, addnodes.index(entries=entries))


def setup(app):
    """Adds the anchors."""
    app.add_transform(Anchors)
    return {"parallel_read_safe": True, "parallel_write_safe": True}
