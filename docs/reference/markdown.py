"""Turns markdown into HTML: as much of it as this repository's documentation uses."""
import html
import re

CODE = r"(`+)(.+?)\1"
PICTURE = r"!\[([^\]]*)\]\(([^)]*)\)"
LINK = r"\[((?:[^\[\]]|\[[^\]]*\])*)\]\(([^)]*)\)"
STRESS = r"\*\*(.+?)\*\*|(?<!\w)\*([^*\s][^*]*)\*(?!\w)"
BRACKET = r"\[([^\[\]()`]+)\](?!\()"
INLINE = re.compile(f"{CODE}|{PICTURE}|{LINK}|{STRESS}|{BRACKET}", re.S)
BULLET = re.compile(r"( *)([-*]|\d+\.) +(.*)")


def anchor(title, seen=None):
    """A heading's anchor, as forges make it."""
    text = re.sub(r"[^\w\- ]", "", re.sub(r"[`*]", "", title).strip().lower()).replace(" ", "-")
    if seen is not None:
        seen[text] = seen.get(text, -1) + 1
        text += f"-{seen[text]}" if seen[text] else ""
    return text


class Renderer:
    """Renders one page; `link` says where a target leads (or None), `code` what a piece of code in a line is."""

    def __init__(self, link, code):
        self.link, self.code, self.seen, self.headings = link, code, {}, []

    def inline(self, text):
        out, at = [], 0
        for found in INLINE.finditer(text):
            out.append(html.escape(text[at : found.start()], quote=False))
            out.append(self.span(found))
            at = found.end()
        return "".join(out) + html.escape(text[at:], quote=False)

    def span(self, found):
        _, code, alt, image, label, target, strong, em, bracket = found.groups()
        if code is not None:
            return self.code(code.strip() if code.startswith(" ") else code)
        if image is not None:
            there = self.link(image)
            return f'<img src="{html.escape(there or image)}" alt="{html.escape(alt)}">'
        if target is not None:
            there = self.link(target)
            inside = self.inline(label)
            return f'<a href="{html.escape(there)}">{inside}</a>' if there else inside
        if bracket is not None:
            return self.bracket(bracket)
        if strong is not None:
            return f"<strong>{self.inline(strong)}</strong>"
        return f"<em>{self.inline(em)}</em>"

    def bracket(self, text):
        """A text in brackets that is no link."""
        return f"[{html.escape(text, quote=False)}]"

    def bare(self, text):
        """The same without links, to put into one."""
        code, link = self.code, self.link
        self.code, self.link = (lambda it: f"<code>{html.escape(it, quote=False)}</code>"), (lambda it: None)
        made = self.inline(text)
        self.code, self.link = code, link
        return made

    def page(self, text, lower=0):
        """The whole page; headings are `lower` levels deeper."""
        return "\n".join(self.blocks(text.split("\n"), lower))

    def blocks(self, lines, lower=0):
        at = 0
        while at < len(lines):
            line = lines[at]
            if not line.strip():
                at += 1
            elif line.lstrip().startswith("```"):
                made, at = self.fence(lines, at)
                yield made
            elif re.match(r"#+ ", line):
                yield self.heading(line, lower)
                at += 1
            elif line.startswith("|"):
                made, at = self.table(lines, at)
                yield made
            elif BULLET.match(line):
                made, at = self.list(lines, at)
                yield made
            elif line.startswith("    "):
                end = next((i for i in range(at, len(lines)) if lines[i].strip() and not lines[i].startswith("    ")), len(lines))
                yield "<pre><code>" + html.escape("\n".join(it[4:] for it in lines[at:end]).rstrip(), quote=False) + "</code></pre>"
                at = end
            else:
                end = next((i for i in range(at, len(lines)) if self.ends_paragraph(lines[i], i > at)), len(lines))
                yield f"<p>{self.inline(' '.join(it.strip() for it in lines[at:end]))}</p>"
                at = end

    def ends_paragraph(self, line, inside):
        return inside and (not line.strip() or re.match(r"#+ |\||```|[-*] |\d+\. ", line))

    def heading(self, line, lower):
        marks, title = line.split(" ", 1)
        self.title = title
        level, name = min(6, len(marks) + lower), anchor(title, self.seen)
        self.headings.append((len(marks), name, title))
        return f'<h{level} id="{name}"><a class="here" href="#{name}">{self.bare(title)}</a></h{level}>'

    def fence(self, lines, at):
        columns = len(lines[at]) - len(lines[at].lstrip())
        kind = lines[at].strip().strip("`")
        end = next(i for i in range(at + 1, len(lines)) if lines[i].strip() == "```")
        text = "\n".join(line[columns:] for line in lines[at + 1 : end])
        return f"<pre><code>{self.block(kind, text)}</code></pre>", end + 1

    def block(self, kind, text):
        return html.escape(text, quote=False)

    def table(self, lines, at):
        end = next((i for i in range(at, len(lines)) if not lines[i].startswith("|")), len(lines))
        rows = [[cell.strip().replace("\\|", "|") for cell in re.split(r"(?<!\\)\|", line.strip().strip("|"))] for line in lines[at:end]]
        head = "".join(f"<th>{self.inline(it)}</th>" for it in rows[0])
        ruled = len(rows) > 1 and all(re.fullmatch(r":?-+:?", it) for it in rows[1])
        body = "".join("<tr>" + "".join(f"<td>{self.inline(it)}</td>" for it in row) + "</tr>\n" for row in rows[2 if ruled else 1 :])
        return f'<div class="wide" tabindex="0"><table><thead><tr>{head}</tr></thead><tbody>\n{body}</tbody></table></div>', end

    def list(self, lines, at):
        """The list that begins here: items of its column, with what has a greater indent inside of them."""
        column, sign, _ = BULLET.match(lines[at]).groups()
        kind = "ul" if sign in "-*" else "ol"
        first = f' start="{int(sign[:-1])}"' if kind == "ol" and sign != "1." else ""
        items, inside = [], None
        while at < len(lines):
            line = lines[at]
            found = BULLET.match(line)
            if found and len(found.group(1)) == len(column) and (found.group(2) in "-*") == (kind == "ul"):
                inside = [found.group(3)]
                items.append((inside, len(line) - len(found.group(3))))
            elif line.strip() and not line.startswith(" " * (len(column) + 2)):
                break
            elif not line.strip() and not self.goes_on(lines, at, column):
                break
            else:
                inside.append(line[min(items[-1][1], len(line) - len(line.lstrip())) :])
            at += 1
        made = "".join(f"<li{self.mark(it)}>{self.item(it)}</li>\n" for it, _ in items)
        return f"<{kind}{first}>\n{made}</{kind}>", at

    def goes_on(self, lines, at, column):
        rest = next((it for it in lines[at:] if it.strip()), "")
        found = BULLET.match(rest)
        return rest.startswith(" " * (len(column) + 2)) or bool(found and len(found.group(1)) == len(column))

    def mark(self, lines):
        """The attributes of an item."""
        return ""

    def item(self, lines):
        """An item: a single paragraph has no tag of its own."""
        made = list(self.blocks(lines))
        if made and made[0].startswith("<p>"):
            made[0] = made[0][3:-4]
        return "\n".join(made)
