"""What the page of bugs shows, read as a browser would."""

import html.parser


class Articles(html.parser.HTMLParser):
    """The articles of a page: of each its name, its heading, what its pictures say, the texts that are shown as they
    are, and where its links lead."""

    def __init__(self, page):
        super().__init__()
        self.found, self.inside = {}, []
        self.feed(page)

    def handle_starttag(self, tag, attrs):
        attrs = dict(attrs)
        if tag == "article":
            self.found[attrs["id"]] = {"h2": "", "desc": "", "pre": "", "links": [], "drawn": []}
        self.inside.append(tag)
        if self.found and tag == "a":
            self.now()["links"].append(attrs["href"])
        if self.found and "data-bug" in attrs:
            self.now()["drawn"].append(attrs["data-bug"])
        if tag in ("img", "meta", "link"):
            self.inside.pop()

    def handle_endtag(self, tag):
        while self.inside and self.inside.pop() != tag:
            pass

    def handle_data(self, data):
        if self.found and self.inside and self.inside[-1] in ("h2", "desc", "pre"):
            self.now()[self.inside[-1]] += data

    def now(self):
        return list(self.found.values())[-1]
