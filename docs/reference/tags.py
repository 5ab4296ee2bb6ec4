"""The pieces of HTML that the pages are made of."""
import html


def plain(text):
    return html.escape(text, quote=False)


def link(href, inside, kind=""):
    shown = f' class="{kind}"' if kind else ""
    return f'<a{shown} href="{html.escape(href)}">{inside}</a>'


def code(inside):
    return f"<code>{inside}</code>"


def piece(inside, kind=""):
    """Code on lines of its own."""
    shown = f' class="{kind}"' if kind else ""
    return f"<pre{shown}><code>{inside}</code></pre>"


def folded(title, inside):
    """What is shown when its title is opened."""
    return f"<details><summary>{title}</summary>{inside}</details>"


def section(kind, name, inside):
    return f'<section class="{kind}" id="{name}">{inside}</section>'


def here(name, inside):
    """A link of a piece of a page to itself."""
    return link(f"#{name}", inside, "here")


def entry(head, inside, name=""):
    """A row of a list of names with what is said of each."""
    anchor = f' id="{name}"' if name else ""
    return f"<dt{anchor}>{head}</dt><dd>{inside}</dd>"
