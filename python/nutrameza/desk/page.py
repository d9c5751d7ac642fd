"""The policy view as HTML: the same for the desk's page and for the report. Each name stands with its number in
brackets."""

from html import escape
from typing import List, Sequence

from ..limits import MAX_USER_ROLES
from ..policy import called, counted
from . import drawing
from .view import View

NO_SURVEY = "no figure: the program nutrameza_survey is not installed"


# ---- words ----

def many(count: int, one: str, more: str = "") -> str:
    """A count with its noun."""
    return f"{count} {one if count == 1 else more or one + 's'}"


def plain(view: View, sort: str, number: int) -> str:
    """A name with its number in brackets, as text of a page."""
    return f'<span class="named">{escape(called(sort, number, view["names"]))}&nbsp;<small>({number})</small></span>'


def chip(view: View, role: int) -> str:
    """A role as a link to what is said of it."""
    return f'<a class="chip" href="#role-{role}" data-role="{role}">{escape(called("role", role, view["names"]))} <small>({role})</small></a>'


def chips(view: View, roles: Sequence[int]) -> str:
    """Roles one behind the other, or a word for none."""
    return f'<span class="chips">{"".join(chip(view, role) for role in roles)}</span>' if roles else '<span class="none">none</span>'


def listed(view: View, sort: str, numbers: Sequence[int], none: str) -> str:
    """Names one behind the other, or a word for none."""
    return ", ".join(plain(view, sort, number) for number in numbers) if numbers else f'<span class="none">{none}</span>'


def table(heads: Sequence[str], rows: Sequence[Sequence[str]], label: str) -> str:
    """A table whose first column names the rows."""
    head = "".join(f'<th scope="col">{one}</th>' for one in heads)
    body = "".join(f'<tr><th scope="row">{row[0]}</th>{"".join(f"<td>{cell}</td>" for cell in row[1:])}</tr>' for row in rows)
    return (f'<div class="scroll" tabindex="0" role="region" aria-label="{label}"><table class="list"><thead><tr>{head}</tr></thead>'
            f"<tbody>{body}</tbody></table></div>")


def section(name: str, title: str, lead: str, body: str) -> str:
    """A part of the view with its heading."""
    return f'<section class="part" id="{name}"><h2>{title}</h2><p class="lead">{lead}</p>{body}</section>'


# ---- an accepted policy ----

def nodes(view: View) -> List[drawing.Node]:
    """The boxes of the picture."""
    found = []
    for role, said in enumerate(view["roles"]):
        people = many(len(said["assigned"]) + len(said["reached"]), "person", "people")
        found.append(drawing.Node(called("role", role, view["names"]), f"{people} · carries {len(said['carried'])}", ""))
    return found


def role_article(view: View, role: int) -> str:
    """All that is said of a role."""
    said = view["roles"][role]
    rows = [("May be taken by", listed(view, "user", said["assigned"], "nobody by assignment"))]
    if said["reached"]:
        rows.append(("and, from a senior role, by", listed(view, "user", said["reached"], "")))
    if said["seniors"]:
        rows.append(("Seniors", chips(view, said["seniors"])))
    rows.append(("Juniors", chips(view, said["juniors"])))
    if len(said["below"]) > len(said["juniors"]):
        rows.append(("Below these", chips(view, [lower for lower in said["below"] if lower not in said["juniors"]])))
    rows.append(("Own grants", listed(view, "permission", said["granted"], "none")))
    rows += [(f"Through {chip(view, one['role'])}", listed(view, "permission", one["permissions"], "")) for one in said["through"]]
    body = "".join(f"<dt>{term}</dt><dd>{what}</dd>" for term, what in rows)
    return (f'<article class="role" id="role-{role}" tabindex="-1"><h3>{plain(view, "role", role)}</h3>'
            f'<p class="sub">carries {many(len(said["carried"]), "permission")}</p><dl>{body}</dl></article>')


def hierarchy(view: View) -> str:
    """The picture, and the roles one by one."""
    picture = drawing.hierarchy(nodes(view), view["seniors"])
    articles = "".join(role_article(view, role) for role in range(len(view["roles"])))
    return section("hierarchy", "Roles", "Seniors stand above their juniors. A role carries what the roles below it carry, and whoever "
                   "may take it may take those too.",
                   f'<div class="beside"><div class="picture scroll" tabindex="0" role="region" aria-label="Hierarchy">{picture}</div>'
                   f'<div class="detail" id="detail"><p class="choose">Choose a role in the picture to see its people, its juniors '
                   f"and where each permission comes from.</p>{articles}</div></div>")


def matrix(view: View) -> str:
    """The roles and permissions after seniority."""
    roles = range(len(view["roles"]))
    own = [frozenset(said["granted"]) for said in view["roles"]]
    carried = [frozenset(said["carried"]) for said in view["roles"]]
    heads = "".join(f'<th scope="col"><a href="#role-{role}" data-role="{role}"><span>{escape(called("role", role, view["names"]))} '
                    f"<small>({role})</small></span></a></th>" for role in roles)
    rows = []
    for permission in range(view["counts"][2]):
        cells = "".join('<td class="own">●</td>' if permission in own[role] else '<td class="through">○</td>' if permission in carried[role]
                        else "<td></td>" for role in roles)
        rows.append(f'<tr><th scope="row">{plain(view, "permission", permission)}</th>{cells}</tr>')
    return section("matrix", "Permissions", 'What each role carries after seniority: <span class="own">●</span> by a grant of its own, '
                   '<span class="through">○</span> through a role below it.',
                   '<p class="pointed" id="pointed" aria-live="polite">Point at a mark to see where the permission comes from.</p>'
                   '<div class="scroll tall" tabindex="0" role="region" aria-label="Matrix of permissions and roles">'
                   f'<table class="matrix"><thead><tr><td></td>{heads}</tr></thead><tbody>{"".join(rows)}</tbody></table></div>')


def people(view: View) -> str:
    """The people with assigned and reached roles."""
    rows = []
    for user, said in enumerate(view["people"]):
        roles = len(said["assigned"]) + len(said["reached"])
        rows.append((plain(view, "user", user), chips(view, said["assigned"]), chips(view, said["reached"]),
                     f'<span class="nowrap">{roles} of {MAX_USER_ROLES}</span>', str(len(said["permissions"]))))
    return section("people", "People", "A person may take each assigned role and every role below it, at most "
                   f"{MAX_USER_ROLES} in all. Exclusions and limits may keep some of them apart.",
                   table(("Person", "Assigned", "Reached besides", "Roles", "Permissions"), rows, "People"))


def exclusions(view: View) -> str:
    """The exclusions with the survey's figures."""
    lead = "Fewer than n of the roles may be counted together. The figure is about the exclusion alone: of all combinations of its roles, how many it allows."
    if not view["exclusions"]:
        return section("exclusions", "Exclusions", lead, '<p class="empty">The policy has no exclusion.</p>')
    rows = [(f'<code>{said["kind"]}</code><br><span class="sub">{said["counts"]}</span>', f'<span class="nowrap">fewer than {said["n"]}</span>',
             chips(view, said["members"]), f'<span class="figure">{said["figure"]}</span>' if said["figure"] else f'<span class="none">{NO_SURVEY}</span>') for said in view["exclusions"]]
    return section("exclusions", "Exclusions", lead, table(("Kind, and what it counts", "n", "Of these roles", "Figure"), rows, "Exclusions"))


def limits(view: View) -> str:
    """The limits with how many windows may hold the role, and who may take it."""
    lead = "A limit holds over all people: how many open windows may hold a role at a time."
    if not view["limits"]:
        return section("limits", "Limits", lead, '<p class="empty">The policy has no limit.</p>')
    rows = [(chip(view, said["role"]), f'at most {many(said["t"] - 1, "window")} at a time <span class="sub">(fewer than {said["t"]})</span>',
             listed(view, "user", said["people"], "nobody")) for said in view["limits"]]
    return section("limits", "Limits", lead, table(("Role", "May be held by", "People who may take it"), rows, "Limits"))


def accepted(view: View) -> str:
    """An accepted policy, whole."""
    users, roles, permissions = view["counts"]
    figures = ((users, "person", "people"), (roles, "role", "roles"), (permissions, "permission", "permissions"),
               (len(view["exclusions"]), "exclusion", "exclusions"), (len(view["limits"]), "limit", "limits"))
    strip = "".join(f"<li><strong>{count}</strong> {one if count == 1 else more}</li>" for count, one, more in figures)
    return (f'<ul class="figures" aria-label="{escape(counted(view["counts"]))}">{strip}</ul>'
            + hierarchy(view) + matrix(view) + people(view) + exclusions(view) + limits(view))


# ---- a refused policy ----

def refused(view: View) -> str:
    """A refused policy: the reasons, what can be drawn, and the text with its wrong lines."""
    reasons = "".join(f'<li>{where(error["line"])}{escape(error["reason"])}</li>' for error in view["errors"])
    found = (f'<section class="part refusal" id="refusal" role="alert"><h2>The policy is refused</h2><ul class="reasons">{reasons}</ul>'
             f'<p class="sub">Mend the file, save it, and read it again.</p></section>')
    if view["seniors"]:
        found += refused_picture(view)
    return found + (source(view) if view["text"] else "")


def where(line: int) -> str:
    """The line of a reason, as a link."""
    return f'<a href="#line-{line}">line {line}</a>: ' if line else ""


def refused_picture(view: View) -> str:
    """The hierarchy of a refused policy: its loop in red, or the roles of the person who reaches too many."""
    loop = frozenset(zip(view["loop"], view["loop"][1:]))
    reach = frozenset(view["person"]["roles"]) if view["person"] else frozenset()
    boxes = [drawing.Node(called("role", role, view["names"]), "on the loop" if role in view["loop"] else "reached" if role in reach else "",
                          " looped" if role in view["loop"] else " reached" if role in reach else "") for role in range(view["counts"][1])]
    lead = "The hierarchy as the text says it."
    if loop:
        lead = f'The loop is red: {" over ".join(plain(view, "role", role) for role in view["loop"])}.'
    elif view["person"]:
        lead = f'Marked are the {len(reach)} roles that {plain(view, "user", view["person"]["user"])} may switch on; {MAX_USER_ROLES} is the most.'
    return section("hierarchy", "Roles", lead, '<div class="picture scroll" tabindex="0" role="region" aria-label="Hierarchy">'
                   f'{drawing.hierarchy(boxes, view["seniors"], loop)}</div>')


def source(view: View) -> str:
    """The text, its wrong lines marked."""
    wrong = {error["line"]: error["reason"] for error in reversed(view["errors"])}
    lines = "".join(f'<li id="line-{number}"{" class=wrong" if number in wrong else ""}><code>{escape(line) or " "}</code>'
                    f'{f"<span class=why>{escape(wrong[number])}</span>" if number in wrong else ""}</li>'
                    for number, line in enumerate(view["text"], start=1))
    return section("source", "The text", escape(view["file"]), f'<ol class="source scroll" tabindex="0">{lines}</ol>')


def policy_view(view: View) -> str:
    """The policy view."""
    return accepted(view) if view["accepted"] else refused(view)
