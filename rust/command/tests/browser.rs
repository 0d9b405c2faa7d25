//! Pages in a real browser, Debian's chromium without a window: a thousand addresses, IDs and headers are typed into the field by a
//! script, and what the page then shows is what `cartsundial route` says. Where there is no chromium nothing is compared (.ci/compiled
//! installs it, or says that it could not). With CARTSUNDIAL_STORE set README's picture of the recorder is made anew.

mod run;

use cartsundial::{Board, Id, Sheet};
use run::{folder, repository, run};
use std::io::{ErrorKind, Read};
use std::path::{Path, PathBuf};
use std::process::{Command, Stdio};
use std::time::{Duration, Instant};
use std::{env, fs, thread};

/// Name, and the arguments of `page` without -o; the first of them is the sheet for `route`.
const PAGES: [(&str, &str); 5] = [
    ("recorder", "tests/command/recorder.txt docs/example/recorder-trace.txt"),
    ("board", "docs/example/board"),
    ("overlap", "tests/audit/ovmf-overlap.sheet --host tests/audit/ovmf-overlap.host"),
    ("deep", "tests/audit/seabios-deep-16.sheet"),
    ("one-bridge", "tests/audit/ovmf-one-bridge.sheet --host tests/audit/ovmf-one-bridge.host"),
];

/// How many questions a page is asked.
const QUESTIONS: usize = 300;

/// A browser that does not end is a failure.
const PATIENCE: Duration = Duration::from_secs(60);

/// Ends the browser where the test fails.
struct Browser(std::process::Child);

impl Drop for Browser {
    fn drop(&mut self) {
        let _ = self.0.kill();
        let _ = self.0.wait();
    }
}

/// What a run of the browser prints; `None` where there is none.
fn browse(name: &str, options: &[&str], address: &str) -> Option<String> {
    let profile = folder("browser").join(format!("profile-{name}"));
    let mut command = Command::new("chromium");
    command.args([
        "--headless",
        "--no-sandbox",
        "--disable-gpu",
        "--hide-scrollbars",
        "--disable-extensions",
        "--no-first-run",
    ]);
    command.arg(format!("--user-data-dir={}", profile.display())).args(options).arg(address);
    let spawned = command.stdin(Stdio::null()).stdout(Stdio::piped()).stderr(Stdio::null()).spawn();
    let mut browser = match spawned {
        Err(error) if error.kind() == ErrorKind::NotFound => return None,
        spawned => Browser(spawned.unwrap()),
    };
    let mut out = browser.0.stdout.take().unwrap();
    let reader = thread::spawn(move || {
        let mut text = String::new();
        out.read_to_string(&mut text).map(|_| text)
    });
    let start = Instant::now();
    while browser.0.try_wait().unwrap().is_none() {
        assert!(start.elapsed() < PATIENCE, "{name}: the browser does not end");
        thread::sleep(Duration::from_millis(20));
    }
    Some(reader.join().unwrap().unwrap())
}

/// A page in a frame of this width, which a window may not have, with a script at its end: the text that it leaves in `lines`.
fn scripted(name: &str, page: &str, script: &str, width: usize) -> Option<Vec<String>> {
    let end = format!(
        "<script>\nconst lines = [];\n{script}\n\
         parent.postMessage(lines.map((line) => 'LINE ' + line).join('\\n'), '*');\n</script>\n</body>"
    );
    let inner = format!("{name}-scripted.html");
    fs::write(folder("browser").join(&inner), page.replace("</body>", &end)).unwrap();
    let outer = folder("browser").join(format!("{name}-frame.html"));
    let frame = format!(
        "<!DOCTYPE html><body><pre id=\"left\"></pre>\n\
         <script>addEventListener('message', (event) => {{ document.getElementById('left').textContent = event.data; }});</script>\n\
         <iframe src=\"{inner}\" style=\"width:{width}px;height:900px;border:0\"></iframe></body>\n"
    );
    fs::write(&outer, frame).unwrap();
    let options = ["--virtual-time-budget=5000", "--window-size=1400,1000", "--dump-dom"];
    let dom = browse(name, &options, &format!("file://{}", outer.display()))?;
    let (_, left) = dom.split_once("<pre id=\"left\">").unwrap_or_else(|| panic!("{name}: no page: {dom}"));
    let (left, _) = left.split_once("</pre>").unwrap();
    let plain = left.replace("&lt;", "<").replace("&gt;", ">").replace("&nbsp;", "\u{A0}").replace("&amp;", "&");
    Some(plain.split('\n').filter_map(|line| line.strip_prefix("LINE ")).map(String::from).collect())
}

fn made(name: &str, arguments: &str) -> (PathBuf, String) {
    let file = folder("browser").join(format!("{name}.html"));
    let mut words: Vec<&str> = arguments.split(' ').collect();
    words.insert(0, "page");
    words.extend(["-o", file.to_str().unwrap()]);
    let ran = run(&words, b"");
    assert!(ran.status < 2, "{name}: {}", ran.error);
    let page = fs::read_to_string(&file).unwrap();
    (file, page)
}

/// Numbers that look random, the same in every run.
struct Numbers(u64);

impl Numbers {
    fn next(&mut self) -> u64 {
        self.0 = self.0.wrapping_mul(0x5851_F42D_4C95_7F2D).wrapping_add(0x1405_7B7E_F767_814F);
        self.0 >> 16
    }

    fn below(&mut self, count: usize) -> usize {
        self.next() as usize % count
    }
}

fn sheet_of(file: &str) -> Sheet<Vec<u8>> {
    let bytes = fs::read(repository().join(file)).unwrap();
    let board = std::str::from_utf8(&bytes).ok().and_then(|text| text.parse::<Board>().ok());
    let board = board.or_else(|| Board::of_bytes(&bytes).ok());
    Sheet::new(board.map_or(bytes, |board| board.plan().unwrap())).unwrap()
}

fn hexadecimal(bytes: &[u8]) -> String {
    bytes.iter().map(|byte| format!("{byte:02X}")).collect()
}

fn memory(byte0: u8, address: u64) -> Vec<u8> {
    match address >> 32 {
        0 => [&[byte0, 0, 0, 1, 0, 0, 0, 0x0F], &(address as u32).to_be_bytes()[..]].concat(),
        _ => [&[byte0 | 0x20, 0, 0, 1, 0, 0, 0, 0x0F], &address.to_be_bytes()[..]].concat(),
    }
}

fn io(byte0: u8, address: u32) -> Vec<u8> {
    [&[byte0, 0, 0, 1, 0, 0, 0, 0x0F], &address.to_be_bytes()[..]].concat()
}

fn by_id(byte0: u8, id: u16) -> Vec<u8> {
    let front = match byte0 {
        0x0A | 0x0B => [byte0, 0, 0, 0, 0, 0, 0, 4],
        0x4A | 0x4B => [byte0, 0, 0, 1, 0, 0, 0, 4],
        _ => [byte0, 0, 0, 1, 0, 0, 0, 0x0F],
    };
    [&front, &id.to_be_bytes()[..], &[0, 0]].concat()
}

fn message(routing: u8, tail: u64) -> Vec<u8> {
    [&[0x30 | routing, 0, 0, 0, 0, 0, 0, 0x7F], &tail.to_be_bytes()[..]].concat()
}

/// What is typed, and the headers that `route` is asked with for it.
fn questions(sheet: &Sheet<Vec<u8>>, numbers: &mut Numbers) -> Vec<(String, Vec<Vec<u8>>)> {
    let mut edges = vec![0, 1 << 32, 0xFFFF, u64::MAX];
    let mut ids = vec![0, 0x0100, 0xFFFF];
    for function in sheet.functions() {
        edges.extend(function.bars().flat_map(|placed| [*placed.range().start(), *placed.range().end()]));
        let windows =
            function.windows().map_or(Vec::new(), |all| [all.low, all.high, all.io].into_iter().flatten().collect());
        edges.extend(windows.iter().flat_map(|window| [*window.start(), *window.end()]));
        ids.push(function.id.0);
    }
    (0..QUESTIONS).map(|_| question(&edges, &ids, numbers)).collect()
}

fn question(edges: &[u64], ids: &[u16], numbers: &mut Numbers) -> (String, Vec<Vec<u8>>) {
    let spread = (numbers.next() & 0xFFF_FFFF) >> numbers.below(28);
    let edge = edges[numbers.below(edges.len())];
    let address = if numbers.below(2) == 0 { edge.wrapping_add(spread) } else { edge.wrapping_sub(spread) } & !3;
    let id = ids[numbers.below(ids.len())].wrapping_add([0, 0, 1, 8, 0x100][numbers.below(5)]);
    let header = match numbers.below(12) {
        0..=2 => {
            let is_io = address <= 0xFFFF;
            let both = [Some(memory(0x00, address)), is_io.then(|| io(0x02, address as u32))];
            let text = if address & 4 == 0 { format!("{address:X}") } else { format!("0x{address:08x}") };
            return (text, both.into_iter().flatten().collect());
        }
        3 => return (Id(id).to_string(), vec![by_id(0x0A, id)]),
        4 => memory([0x00, 0x40][numbers.below(2)], address),
        5 => memory(0x01, address),
        6 => io([0x02, 0x42][numbers.below(2)], address as u32),
        7 => by_id([0x04, 0x44, 0x05, 0x45][numbers.below(4)], id),
        8 => by_id([0x0A, 0x0B, 0x4A, 0x4B][numbers.below(4)], id),
        9 => message([0, 3, 4, 5][numbers.below(4)], 0),
        10 => message(2, u64::from(id) << 48),
        _ => message(1, address),
    };
    let text = hexadecimal(&header);
    let spaced = text.as_bytes().chunks(8).map(|four| std::str::from_utf8(four).unwrap()).collect::<Vec<_>>().join(" ");
    (if numbers.below(2) == 0 { text } else { spaced }, vec![header])
}

/// What `route` says of each header, without the header's own title.
fn routed(sheet: &str, headers: &[Vec<u8>]) -> Vec<String> {
    let lines: String = headers.iter().map(|header| hexadecimal(header) + "\n").collect();
    let ran = run(&["route", sheet, "-"], lines.as_bytes());
    let text = String::from_utf8(ran.out).unwrap();
    text.lines().map(|line| line.split_once(": ").unwrap().1.to_string()).collect()
}

/// Types each question into the field, as a reader does, and takes what is shown.
const ASK: &str = "
const form = document.querySelector('#ask form');
for (const text of asked) {
  form.question.value = text;
  form.requestSubmit();
  const found = [...document.querySelectorAll('#answer .found')].map((one) => one.textContent);
  const lit = [...document.querySelectorAll('.function.owner')].map((one) => one.id).join(' ');
  const way = document.querySelectorAll('.function.way').length;
  lines.push(found.join(' | ') + ' # ' + lit + ' # ' + way);
}";

#[test]
fn a_thousand_questions() {
    let mut asked = 0;
    for (name, arguments) in PAGES {
        let file = arguments.split(' ').next().unwrap();
        let (_, page) = made(name, arguments);
        let questions = questions(&sheet_of(file), &mut Numbers(name.len() as u64));
        let headers: Vec<Vec<u8>> = questions.iter().flat_map(|(_, headers)| headers.clone()).collect();
        let mut routes = routed(file, &headers).into_iter();
        let texts: Vec<String> = questions.iter().map(|(text, _)| format!("\"{text}\"")).collect();
        let script = format!("const asked = [{}];\n{ASK}", texts.join(","));
        let Some(shown) = scripted(name, &page, &script, 1280) else { return };
        assert_eq!(shown.len(), QUESTIONS, "{name}");
        for ((text, headers), shown) in questions.iter().zip(&shown) {
            let expected: Vec<String> = routes.by_ref().take(headers.len()).collect();
            let (found, lit) = shown.split_once(" # ").unwrap();
            let (lit, way) = lit.split_once(" # ").unwrap();
            assert_eq!(found, expected.join(" | "), "{name}: {text}");
            // The owner is lit up, and as many bridges as are on the way.
            if let [one] = &expected[..] {
                let record = one.strip_prefix("record ").map(|rest| rest.split(',').next().unwrap());
                assert_eq!(lit, record.map_or(String::new(), |record| format!("a{record}")), "{name}: {text}");
                let listed = one.split_once("bridges: ").or(one.split_once("bridge: "));
                assert_eq!(
                    way.parse(),
                    Ok(listed.map_or(0, |(_, names)| names.matches(":").count())),
                    "{name}: {text}"
                );
            }
            asked += 1;
        }
    }
    assert!(asked >= 1000, "{asked}");
}

/// Nothing is fetched, everything that can be used has a name, nothing is wider than the screen, and a click lists packets.
const LOOK: &str = "
const named = (one) => one.labels?.length || one.getAttribute('aria-label') || one.textContent.trim();
lines.push('fetched ' + performance.getEntriesByType('resource').length);
lines.push('without a name ' + [...document.querySelectorAll('button, input, a, summary')].filter((one) => !named(one)).length);
const ids = [...document.querySelectorAll('[id]')].map((one) => one.id);
lines.push('twice ' + (ids.length - new Set(ids).size));
lines.push('too wide ' + Math.max(0, document.documentElement.scrollWidth - innerWidth));
lines.push('width ' + innerWidth);
for (const button of document.querySelectorAll('.matrix button, .numbers button')) {
  button.click();
  lines.push(button.textContent + ' listed ' + document.querySelectorAll('.listed tbody tr').length);
}";

#[test]
fn what_can_be_used() {
    for (name, arguments) in [
        PAGES[0],
        PAGES[2],
        ("beside", "tests/command/recorder.txt --beside docs/example/board"),
        ("refused", "tests/command/full.txt"),
    ] {
        for width in [360, 1280] {
            let (_, page) = made(&format!("{name}-{width}"), arguments);
            let Some(lines) = scripted(&format!("look-{name}-{width}"), &page, LOOK, width) else { return };
            let fixed = ["fetched 0", "without a name 0", "twice 0", "too wide 0", &format!("width {width}")];
            assert_eq!(lines[..5], fixed, "{name} {width}");
            let listed: Vec<&str> = lines[5..].iter().map(String::as_str).collect();
            let trace = [
                "2 listed 2",
                "1 listed 1",
                "4 listed 4",
                "1 listed 1",
                "1 listed 1",
                "1 listed 1",
                "1 listed 1",
                "1 listed 1",
            ];
            assert_eq!(listed, if name == "recorder" { &trace[..] } else { &[] }, "{name}");
        }
    }
}

/// README's picture. Its pixels are the browser's and the fonts', so only that it is there is asked.
#[test]
fn picture() {
    let file = repository().join("docs/page.png");
    if env::var_os("CARTSUNDIAL_STORE").is_some() {
        let (page, _) = made("recorder", PAGES[0].1);
        let options = [&format!("--screenshot={}", file.display())[..], "--window-size=1120,880"];
        browse("picture", &options, &format!("file://{}#ask=F8100010", page.display()));
    }
    assert!(is_png(&file), "docs/page.png is missing: CARTSUNDIAL_STORE=1 cargo test --test browser picture makes it");
}

fn is_png(file: &Path) -> bool {
    fs::read(file).is_ok_and(|bytes| bytes.starts_with(b"\x89PNG\r\n\x1A\n"))
}
