//! The run as one page of HTML that needs nothing beside it.

use super::disc;
use super::hold::{End, Side};
use super::run::{Part, Run};
use super::totals::Totals;
use super::words::{self, count};

const STYLE: &str = include_str!("page.css");
/// Parts named for each kind of difference.
const NAMED: usize = 40;

pub fn page(run: &Run) -> String {
    let totals = Totals::of(run);
    let is = |part: &&Part, end: fn(End) -> bool| !part.differs() && end(part.held.tested.end);
    let differing: Vec<&Part> = run.differing().collect();
    let refused = run
        .parts
        .iter()
        .filter(|p| is(p, |end| end != End::Accepted));
    let accepted = run
        .parts
        .iter()
        .filter(|p| is(p, |end| end == End::Accepted));
    let mut text = head(run, &totals);
    if !differing.is_empty() {
        text += &section("differing", "Differing", &differing, unlike_row);
    }
    text += &section(
        "refused",
        "Refused alike",
        &refused.collect::<Vec<_>>(),
        row,
    );
    text += &section(
        "accepted",
        "Accepted alike",
        &accepted.collect::<Vec<_>>(),
        row,
    );
    text += &odd(run);
    text + "</main>\n</body>\n</html>\n"
}

fn head(run: &Run, totals: &Totals) -> String {
    let (verdict, class) = match totals.differing {
        0 if run.parts.is_empty() => ("No part was compared".to_string(), "bad"),
        0 => ("Nothing differs".to_string(), "good"),
        1 => (format!("1 of {} parts differs", run.parts.len()), "bad"),
        n => (format!("{n} of {} parts differ", run.parts.len()), "bad"),
    };
    let shapes = disc::shapes();
    let intro = format!(
        "The {} held against the reference on {}: sewing and its eleven stages.",
        program(run.tested),
        count(run.parts.len(), "part", "parts")
    );
    format!(
        "<!DOCTYPE html>\n<html lang=\"en\">\n<head>\n<meta charset=\"utf-8\">\n\
         <meta name=\"viewport\" content=\"width=device-width\">\n\
         <title>Parts: {verdict}</title>\n<style>\n{STYLE}</style>\n</head>\n<body>\n\
         {shapes}<main>\n<h1 class=\"{class}\">{verdict}</h1>\n<p>{intro}</p>\n{}{}{}{}",
        tiles(run, totals),
        kinds(totals),
        refusals(run, totals),
        legend()
    )
}

/// What a program is called in a sentence.
fn program(name: &str) -> &str {
    match name {
        "library" => "proved library",
        "second" => "second implementation",
        other => other,
    }
}

/// The totals, with ways to the sections.
fn tiles(run: &Run, totals: &Totals) -> String {
    let same = run.parts.len() - totals.differing;
    let all = [
        ("parts", "", run.parts.len()),
        ("same", "", same),
        ("differing", "differing", totals.differing),
        ("accepted", "accepted", totals.accepted),
        ("refused", "refused", totals.all_refused()),
        ("odd files", "odd", run.odd.len()),
    ];
    let tile = |(name, section, number): (&str, &str, usize)| {
        let name = match (section, number) {
            ("", _) | (_, 0) => name.to_string(),
            (id, _) => format!("<a href=\"#{id}\">{name}</a>"),
        };
        format!("<div><dt>{name}</dt><dd>{number}</dd></div>")
    };
    let tiles: String = all.into_iter().map(tile).collect();
    format!("<dl class=\"tiles\">{tiles}</dl>\n")
}

fn kinds(totals: &Totals) -> String {
    if totals.kinds.is_empty() {
        return String::new();
    }
    let mut rows = String::new();
    for (kind, parts) in &totals.kinds {
        let link =
            |part: &&Part| format!("<a href=\"#p{}\">{}</a>", part.number, escaped(&part.name));
        let mut names = parts[..parts.len().min(NAMED)]
            .iter()
            .map(link)
            .collect::<Vec<_>>()
            .join(", ");
        if parts.len() > NAMED {
            names += &format!(" and {} more", parts.len() - NAMED);
        }
        rows += &format!(
            "<tr><td class=\"kind\">{}</td><td class=\"n\">{}</td><td class=\"name\">{names}</td></tr>\n",
            kind.name(),
            parts.len(),
        );
    }
    format!(
        "<h2>Differences by kind</h2>\n<table class=\"small\"><thead><tr><th>Kind</th>\
         <th class=\"n\">Parts</th><th>Which</th></tr></thead><tbody>\n{rows}</tbody></table>\n"
    )
}

fn refusals(run: &Run, totals: &Totals) -> String {
    if totals.refused.is_empty() {
        return String::new();
    }
    let mut items = String::new();
    for (&number, parts) in &totals.refused {
        let words = words::refusal(number);
        items += &format!(
            "<li><b class=\"n\">{number}</b><span>{words}</span><span class=\"n\">{parts}</span></li>\n"
        );
    }
    let note = words::unloaded(run.tested, totals.unloaded).unwrap_or_default();
    format!(
        "<h2>Refusals by number, with the parts refused</h2>\n<ul class=\"refusals\">\n{items}</ul>\n\
         <p class=\"note\">{note}</p>\n"
    )
}

fn legend() -> String {
    let key =
        |loops: usize, words: &str| format!("<li>{} {words}</li>", disc::disc(0, loops, false));
    let unlike = format!("<li>{} the programs differ</li>", disc::disc(0, 2, true));
    format!(
        "<h2>Faces</h2>\n<p>A disc for each face of the body, with a hole for each loop after its \
         first. A part refused after its loops are known shows those of its merged faces.</p>\n\
         <ul class=\"legend\">{}{}{}{}{}{unlike}</ul>\n",
        key(0, "no loop: a closed face"),
        key(1, "one loop"),
        key(2, "two loops"),
        key(4, "four loops"),
        key(12, "so many loops"),
    )
}

/// A table of parts; each gives its rows.
fn section(id: &str, title: &str, parts: &[&Part], rows: fn(&Part) -> String) -> String {
    let body: String = parts.iter().map(|part| rows(part)).collect();
    let title = format!("<h2 id=\"{id}\">{title}: {}</h2>\n", parts.len());
    if parts.is_empty() {
        return title;
    }
    format!(
        "{title}<table class=\"parts\"><thead><tr><th>Part</th><th class=\"n\">Bytes</th>\
         <th class=\"n\">Uses</th><th>Ending</th><th>Faces</th></tr></thead>\n{body}</table>\n"
    )
}

/// The first three cells of a part, over so many rows.
fn first_cells(part: &Part, rows: usize) -> String {
    let uses = part
        .held
        .uses
        .map_or(String::new(), |uses| uses.to_string());
    let span = format!("rowspan=\"{rows}\"");
    format!(
        "<td class=\"name\" {span}>{}</td><td class=\"n\" {span}>{}</td><td class=\"n\" {span}>{uses}</td>",
        escaped(&part.name),
        part.length
    )
}

fn row(part: &Part) -> String {
    let side = &part.held.tested;
    format!(
        "<tbody><tr>{}<td>{}</td><td>{}</td></tr></tbody>\n",
        first_cells(part, 1),
        ending(side.end),
        discs(side, None)
    )
}

/// A differing part: a row for each program, then the differences.
fn unlike_row(part: &Part) -> String {
    let held = &part.held;
    let cells = |side: &Side, other: &Side| {
        format!(
            "<td><b>{}</b> {}</td><td>{}</td>",
            side.name,
            ending(side.end),
            discs(side, Some(other))
        )
    };
    let mut told = String::new();
    for difference in &held.differences {
        let (kind, words) = (difference.kind.name(), escaped(&difference.told));
        told += &format!("<li><b>{kind}</b> {words}</li>");
    }
    let third = held.third.as_deref().unwrap_or("");
    let third = format!("<span class=\"words\">{third}</span>");
    format!(
        "<tbody id=\"p{}\"><tr>{}{}</tr>\n<tr>{}</tr>\n\
         <tr><td colspan=\"2\"><ul>{told}</ul>{third}</td></tr></tbody>\n",
        part.number,
        first_cells(part, 3),
        cells(&held.tested, &held.other),
        cells(&held.other, &held.tested)
    )
}

fn ending(end: End) -> String {
    match end {
        End::Refused(number, _) => {
            let words = words::refusal(number);
            format!("{end} <span class=\"words\">{words}</span>")
        }
        _ => end.to_string(),
    }
}

/// The faces of a side; those marked have another count at the other.
fn discs(side: &Side, other: Option<&Side>) -> String {
    let Some(counts) = &side.loops else {
        return String::new();
    };
    let mut text = String::new();
    for (face, &loops) in counts.iter().enumerate() {
        let unlike = match other {
            Some(Side {
                loops: Some(theirs),
                ..
            }) => theirs.get(face) != Some(&loops),
            _ => false,
        };
        text += &disc::disc(face, loops, unlike);
    }
    let sum = counts.iter().sum();
    let told = format!(
        "{}, {}",
        count(counts.len(), "face", "faces"),
        count(sum, "loop", "loops")
    );
    format!("<span class=\"discs\">{text}</span> <span class=\"words\">{told}</span>")
}

fn odd(run: &Run) -> String {
    if run.odd.is_empty() {
        return String::new();
    }
    let row = |odd: &super::run::Odd| {
        let (name, why) = (escaped(&odd.name), escaped(&odd.why));
        format!("<tr><td class=\"name\">{name}</td><td>{why}</td></tr>\n")
    };
    let rows: String = run.odd.iter().map(row).collect();
    format!(
        "<h2 id=\"odd\">Odd files, not compared: {}</h2>\n<table class=\"small\"><thead><tr><th>File</th>\
         <th>Why</th></tr></thead><tbody>\n{rows}</tbody></table>\n",
        run.odd.len()
    )
}

fn escaped(text: &str) -> String {
    let text = text.replace('&', "&amp;").replace('<', "&lt;");
    text.replace('>', "&gt;").replace('"', "&quot;")
}
