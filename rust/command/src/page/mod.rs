//! `page`: a box as a page to look at, in one file that needs no network: the tree, the address maps, a field that says who owns an
//! address, and what is in a trace.

mod answers;
mod html;
mod machine;
mod maps;
mod moved;
mod traffic;
mod tree;

use crate::arguments::{Arguments, Options};
use crate::failure::{Answer, Failure, Verdict};
use crate::json::Json;
use crate::output::Outputs;
use crate::source::{read_id, Source};
use answers::Answers;
use cartsundial::{audit, sound, sound_alone, Id};
use html::{data, escaped};
use machine::Machine;
use moved::Moved;
use traffic::Traffic;
use tree::Tree;

pub const OPTIONS: Options = Options { values: &["-o", "--host", "--beside", "--host-id"], ..Options::NONE };

pub const HELP: &str = "\
cartsundial page BOX [TRACE] -o FILE [--host HOST] [--beside BOX] [--host-id ID]

A box as a page for a browser: one file, which fetches nothing. BOX is a board, of which the plan is shown, or a sheet. The page has the
tree from the host down with each bridge's windows and each function's BARs; the three address pools to scale, with what is used,
spare, lost to alignment and free; and a field for an address, an ID or a header, which says who owns it and over which bridges,
for the command words that the sheet has. Owners come from the proved router, which is asked when the page is made. Of a board
that is refused, the page shows who does not fit, where it would lie and what is needed, and the exit status is 1.

With a trace: its packets by sender and receiver, over record numbers, and the refused ones by number.

  -o FILE             where the page goes; - is standard output
  --host HOST         of a sheet, its host: a host record or a board, for the pools
  --beside BOX        a second box beside it, and what moved
  --host-id ID        the host's own ID, for the trace; 00:00.0 where none is given
";

const FRAME: &str = include_str!("page.html");
const STYLE: &str = include_str!("page.css");
const SCRIPT: &str = include_str!("page.js");

/// Before a record's number, in the ids of elements of the first and the second box.
const PREFIXES: [&str; 2] = ["a", "b"];

pub fn run(arguments: &Arguments) -> Answer {
    let (name, trace) = match &arguments.files[..] {
        [name] => (name, None),
        [name, trace] => (name, Some(trace)),
        _ => return Err(Failure::Usage("it takes BOX, and after it TRACE if there is one".into())),
    };
    let file = arguments.value("-o").ok_or_else(|| Failure::Usage("it takes -o FILE, where the page goes".into()))?;
    let host_id = arguments.value("--host-id").map_or(Ok(Id(0)), read_id)?;
    if trace.is_none() && arguments.value("--host-id").is_some() {
        return Err(Failure::Usage("--host-id is for a trace".into()));
    }
    let host = arguments.value("--host").map(|file| Source::read(file)?.into_host()).transpose()?;
    let mut boxes = vec![Machine::read(name, host)?];
    if let Some(other) = arguments.value("--beside") {
        boxes.push(Machine::read(other, None)?);
    }
    shorten(&mut boxes);
    let traffic = match (trace, &boxes[0].named, &boxes[0].refused) {
        (Some(trace), Some(named), None) => Some(Traffic::read(trace, named, PREFIXES[0], host_id)?),
        (Some(_), ..) => return Err(Failure::Usage(format!("{name} is refused: there is no sheet for a trace"))),
        (None, ..) => None,
    };
    let inputs = arguments.inputs();
    let mut outputs = Outputs::new(&inputs);
    outputs.add("-o", file, page(&boxes, traffic.as_ref()));
    outputs.prepare()?.commit()?;
    let is_whole = boxes.iter().all(|one| one.refused.is_none()) && !traffic.is_some_and(|traffic| traffic.is_cut());
    Ok(Verdict::of(is_whole))
}

/// The whole file.
fn page(boxes: &[Machine], traffic: Option<&Traffic>) -> String {
    let moved = match boxes {
        [one, other] => Some(Moved::new(one, other)),
        _ => None,
    };
    let files: Vec<String> = boxes.iter().map(|one| escaped(&one.file)).collect();
    let answers: Vec<Option<Answers>> =
        boxes.iter().map(|one| one.named.as_ref().filter(|_| one.refused.is_none()).map(Answers::new)).collect();
    let machines = boxes.iter().zip(PREFIXES).zip(&answers).map(|((one, prefix), answers)| {
        Json::Object(vec![
            ("file", Json::text(&one.file)),
            ("prefix", Json::text(prefix)),
            ("answers", answers.as_ref().map_or(Json::Null, Answers::json)),
        ])
    });
    let data_of = Json::Object(vec![
        ("boxes", Json::List(machines.collect())),
        ("trace", traffic.map_or(Json::Null, Traffic::json)),
    ]);
    let mut body = String::new();
    if let Some(moved) = &moved {
        body += &section("moved", "What moved", &moved.html(PREFIXES));
    }
    let columns: String = boxes
        .iter()
        .zip(PREFIXES)
        .enumerate()
        .map(|(at, (one, prefix))| {
            machine_html(one, prefix, boxes.len() > 1, moved.as_ref().map(|moved| moved.records(at == 1)))
        })
        .collect();
    body += &format!("<div class=\"boxes\">\n{columns}</div>\n");
    if let Some(traffic) = traffic {
        body += &section("trace", "The trace", &traffic.html());
    }
    filled(&[
        ("title", files.join(" beside ")),
        ("style", STYLE.to_string()),
        ("ask", ask(boxes, &answers)),
        ("said", summary(boxes)),
        ("links", links(moved.is_some(), traffic.is_some())),
        ("body", body),
        ("data", data(&data_of)),
        ("script", SCRIPT.to_string()),
        ("version", env!("CARGO_PKG_VERSION").to_string()),
    ])
}

/// The frame with each `{{name}}` replaced, in one pass: what stands in a value is text.
fn filled(values: &[(&str, String)]) -> String {
    let mut parts = FRAME.split("{{");
    let mut page = parts.next().unwrap_or_default().to_string();
    for part in parts {
        let (name, rest) = part.split_once("}}").expect("a name in the frame has its end");
        let (_, value) = values.iter().find(|(one, _)| *one == name).expect("a name in the frame has a value");
        page += value;
        page += rest;
    }
    page
}

/// A file's name without its folders.
fn short(file: &str) -> &str {
    file.rsplit('/').next().unwrap_or(file)
}

/// Folders are left out where the files have other names without them.
fn shorten(boxes: &mut [Machine]) {
    let names: Vec<String> = boxes.iter().map(|one| short(&one.file).to_string()).collect();
    if names.len() == 1 || names[0] != names[1] {
        boxes.iter_mut().zip(names).for_each(|(one, name)| one.file = name);
    }
}

fn section(id: &str, title: &str, body: &str) -> String {
    format!(
        "<section id=\"{id}\" aria-labelledby=\"{id}-title\">\n<h2 id=\"{id}-title\">{title}</h2>\n{body}</section>\n"
    )
}

fn links(has_moved: bool, has_trace: bool) -> String {
    let all = [
        ("ask", "who owns it", true),
        ("moved", "what moved", has_moved),
        ("tree-a", "the tree", true),
        ("maps-a", "address maps", true),
        ("trace", "the trace", has_trace),
        ("proved", "what is proved", true),
    ];
    let shown = all.iter().filter(|(.., is_there)| *is_there);
    shown.map(|(id, text, _)| format!("<a href=\"#{id}\">{text}</a>\n")).collect()
}

/// A line for each box: planned, a sheet, or refused.
fn summary(boxes: &[Machine]) -> String {
    let mut html = String::new();
    for one in boxes {
        let count = html::counted(one.functions().len() as u64, "function");
        let said = match (&one.refused, one.is_board) {
            (Some(refused), _) => format!("<strong class=\"refused\">{}</strong>", escaped(refused.finding.refusal)),
            (None, true) => format!("planned: {count}"),
            (None, false) => format!("a sheet of {count}; {}", judged(one)),
        };
        html += &format!("<p class=\"verdict\"><span class=\"mono\">{}</span> {said}</p>\n", escaped(&one.file));
    }
    html
}

/// The verdicts on a sheet: the audit's where there is a host, and whether every address has one owner.
fn judged(machine: &Machine) -> String {
    let sheet = machine.named.as_ref().map_or(&[][..], |named| named.sheet.bytes());
    let said = |verdict: Result<(), cartsundial::Refusal>, yes: &str| match verdict {
        Ok(()) => yes.to_string(),
        Err(refusal) => format!("<strong class=\"refused\">{}</strong>", escaped(refusal)),
    };
    let one_owner = match machine.host {
        Some(host) => said(sound(&host, sheet), "yes"),
        None => said(sound_alone(sheet), "yes"),
    };
    let first = machine.host.map_or("no --host is given".to_string(), |host| said(audit(&host, sheet), "accepted"));
    format!("the audit: {first}; one owner for every address: {one_owner}")
}

/// The tree and the maps of a box.
fn machine_html(machine: &Machine, prefix: &str, has_file: bool, moved: Option<Vec<u16>>) -> String {
    let file = if has_file { format!(": {}", escaped(&machine.file)) } else { String::new() };
    let mut html = String::new();
    if let Some(refused) = &machine.refused {
        let (first, rest) = refused.lines.split_first().map_or(("", &[][..]), |(first, rest)| (&first[..], rest));
        let lines: String = rest.iter().map(|line| format!("<li>{}</li>", escaped(line))).collect();
        let drawn = match machine.named {
            Some(_) => {
                "<p>Below, everything is drawn where it would lie if there were room: the same planner placed it in pools of the size \
                 that is needed.</p>"
            }
            None => "<p>There is nothing to draw.</p>",
        };
        let body = format!("<p class=\"refused\"><strong>{}</strong></p><ul>{lines}</ul>{drawn}\n", escaped(first));
        html += &section(&format!("refused-{prefix}"), &format!("Why it is refused{file}"), &body);
    }
    if machine.named.is_some() {
        let would = if machine.refused.is_some() { ", as it would be" } else { "" };
        let records: Vec<String> = moved.unwrap_or_default().iter().map(u16::to_string).collect();
        let tree = format!("<div data-moved=\"{}\">{}</div>", records.join(" "), Tree::new(machine, prefix).html());
        html += &section(&format!("tree-{prefix}"), &format!("The tree{would}{file}"), &tree);
        html +=
            &section(&format!("maps-{prefix}"), &format!("Address maps{would}{file}"), &maps::html(machine, prefix));
    }
    format!("<div class=\"box\">\n{html}</div>\n")
}

/// For which command words the field answers, or why it does not.
fn ask(boxes: &[Machine], answers: &[Option<Answers>]) -> String {
    let mut all = Vec::new();
    for (one, answers) in boxes.iter().zip(answers) {
        let Some(answers) = answers else { continue };
        let words: Vec<String> =
            answers.commands().into_iter().map(|(word, count)| format!("{word:04X} ({count})")).collect();
        let file = if boxes.len() > 1 { format!("{}: ", escaped(&one.file)) } else { String::new() };
        all.push(format!("{file}<span class=\"mono\">{}</span>", words.join(", ")));
    }
    match all.is_empty() {
        true => "<p>The board is refused, so nothing has an owner.</p>".to_string(),
        false => format!(
            "<p class=\"note\">For a packet from the host, and for the command words that the tree shows, each with how many functions \
             have it: {}. Where every command word 0007 would give another answer, that is told too.</p>",
            all.join("; ")
        ),
    }
}
