//! The run as lines for standard output.

use super::hold::Side;
use super::run::{Part, Run};
use super::totals::Totals;
use super::words::{self, count};

/// Parts named for each kind of difference.
const NAMED: usize = 6;
/// Faces on one line.
const FACES: usize = 20;

pub fn lines(run: &Run) -> Vec<String> {
    let totals = Totals::of(run);
    let mut lines = vec![format!(
        "the {} held against the reference: {} in {:.1} s",
        run.tested,
        count(run.parts.len(), "part", "parts"),
        run.seconds
    )];
    if totals.differing > 0 {
        lines.extend([String::new(), "Differing parts".to_string()]);
        run.differing().for_each(|part| lines.extend(one(part)));
        lines.extend(kinds(&totals));
    }
    lines.extend(odd(run));
    lines.extend(sums(run, &totals));
    lines.extend([String::new(), verdict(run, &totals)]);
    lines
}

fn kinds(totals: &Totals) -> Vec<String> {
    let mut lines = vec![
        String::new(),
        "Differences by kind".to_string(),
        format!("  {:<13} {:>5}  {}", "kind", "parts", "which"),
    ];
    for (kind, parts) in &totals.kinds {
        let names: Vec<&str> = parts.iter().map(|part| part.name.as_str()).collect();
        let mut which = names[..names.len().min(NAMED)].join(", ");
        if names.len() > NAMED {
            which += &format!(" and {} more", names.len() - NAMED);
        }
        lines.push(format!("  {:<13} {:>5}  {which}", kind.name(), names.len()));
    }
    lines
}

/// A differing part: endings, the first difference of each kind, loop counts.
fn one(part: &Part) -> Vec<String> {
    let held = &part.held;
    let size = match held.uses {
        None => count(part.length as usize, "byte", "bytes"),
        Some(uses) => format!("{} bytes, {}", part.length, count(uses, "use", "uses")),
    };
    let sides = [&held.tested, &held.other];
    let [ours, theirs] = sides.map(|side| format!("{} {}", side.name, side.end));
    let mut lines = vec![
        format!("  {} ({size})", part.name),
        format!("    {ours}, {theirs}"),
    ];
    lines.extend(held.third.iter().map(|third| format!("    {third}")));
    for difference in &held.differences {
        let kind = difference.kind.name();
        lines.push(format!("    {kind}: {}", difference.told));
    }
    lines.extend(faces(sides));
    lines
}

/// Loop counts per face side by side; `*` stands under those that differ.
fn faces(sides: [&Side; 2]) -> Vec<String> {
    let all = sides.map(|side| side.loops.as_deref().unwrap_or(&[]));
    let both = sides.iter().all(|side| side.loops.is_some());
    let count = all[0].len().max(all[1].len());
    let mut lines = Vec::new();
    for start in (0..count).step_by(FACES) {
        let range = start..count.min(start + FACES);
        let row = |first: &str, cell: &dyn Fn(usize) -> String| {
            let cells: String = range.clone().map(|i| format!("{:>4}", cell(i))).collect();
            format!("    {first:<16}{cells}").trim_end().to_string()
        };
        let loops = |side: usize| {
            move |i: usize| all[side].get(i).map_or("-".to_string(), usize::to_string)
        };
        lines.push(row("face", &|i| i.to_string()));
        lines.push(row(&format!("{} loops", sides[0].name), &loops(0)));
        lines.push(row(&format!("{} loops", sides[1].name), &loops(1)));
        let unlike = |i: usize| both && all[0].get(i) != all[1].get(i);
        if range.clone().any(unlike) {
            let mark = |i| if unlike(i) { "*" } else { "" }.to_string();
            lines.push(row("", &mark));
        }
    }
    lines
}

fn sums(run: &Run, totals: &Totals) -> Vec<String> {
    let sum = |name: &str, number: usize| format!("  {name:<11} {number:>6}");
    let mut lines = vec![
        String::new(),
        "Totals".to_string(),
        sum("parts", run.parts.len()),
        sum("same", run.parts.len() - totals.differing),
        sum("differing", totals.differing),
        sum("accepted", totals.accepted),
        sum("refused", totals.all_refused()),
    ];
    for (&number, &parts) in &totals.refused {
        let words = words::refusal(number);
        lines.push(format!("    with {number:>2}   {parts:>6}  {words}"));
    }
    if totals.stopped > 0 {
        lines.push(sum("stopped", totals.stopped));
    }
    lines.push(sum("odd files", run.odd.len()));
    lines.extend(words::unloaded(run.tested, totals.unloaded).map(|line| format!("  {line}")));
    lines
}

fn odd(run: &Run) -> Vec<String> {
    let mut lines = Vec::new();
    if !run.odd.is_empty() {
        lines.push(String::new());
        lines.push("Odd files, not compared".to_string());
    }
    for odd in &run.odd {
        lines.push(format!("  {}: {}", odd.name, odd.why));
    }
    lines
}

fn verdict(run: &Run, totals: &Totals) -> String {
    match (run.parts.len(), totals.differing) {
        (0, _) => "no part was compared".to_string(),
        (_, 0) => "nothing differs".to_string(),
        (parts, 1) => format!("1 of {parts} parts differs"),
        (parts, n) => format!("{n} of {parts} parts differ"),
    }
}
