//! Statements: of what a report is, and by what it was made; and the page to be read or printed.

mod common;

use common::*;
use serde_json::{json, Value};
use std::fs;
use std::io::{BufRead, BufReader, Write};
use std::net::{TcpListener, TcpStream};
use std::path::Path;
use std::process::Command;
use std::sync::mpsc::{self, Receiver};
use std::thread;
use std::time::Duration;

/// The SHA-256 of a file, as someone else computes it.
fn sha256(folder: &Path, file: &str) -> String {
    text(&bash(folder, &format!("sha256sum '{file}'")).stdout)[..64].to_string()
}

/// The library's commit and digest, as `--version` has them.
fn library(folder: &Path) -> (String, String) {
    let said = text(&lenakkum(folder, "--version").stdout);
    let of = |name: &str| said.lines().find_map(|line| line.strip_prefix(name)).unwrap().to_string();
    (of("commit "), of("library "))
}

const VERSION: &str = env!("CARGO_PKG_VERSION");

#[test]
fn a_statement_names_the_recording_and_what_made_it() {
    let folder = folder("stated");
    fs::write(folder.join("one.cf32"), one()).unwrap();
    let (commit, digest) = library(&folder);
    let expected = |file: &str, date: &str| {
        let recording = sha256(&folder, "one.cf32");
        format!(
            "{ONE}(statement\n(file \"{file}\")\n(recording {recording})\n{date}(format cf32_le)\n(rate 3000)\n\
             (hint 0)\n\
             (version {VERSION})\n(commit {commit})\n(library {digest}))\n"
        )
    };
    let said = lenakkum(&folder, "run one.cf32 --rate 3000 --statement");
    assert_eq!(text(&said.stdout), expected("one.cf32", ""));
    let said = fed(&folder, "run - --rate 3000 --statement", one());
    assert_eq!(text(&said.stdout), expected("standard input", ""));
    let captures = json!([{ "core:sample_start": 0, "core:datetime": "2026-11-16T10:00:00Z" }]);
    sigmf(&folder, "one", json!({}), captures, &one());
    let said = lenakkum(&folder, "run one.sigmf-meta --statement");
    assert_eq!(text(&said.stdout), expected("one.sigmf-meta", "(date 2026-11-16T10:00:00Z)\n"));
    // A part's date is that of its first sample, and the digest is that of all samples.
    let said = lenakkum(&folder, "run one.sigmf-meta --statement --json --start 0.05");
    let stated = json_lines(&said)[0]["statement"].clone();
    assert_eq!(stated["date"], "2026-11-16T10:00:00.050Z");
    assert_eq!(stated["recording_sha256"], Value::from(sha256(&folder, "one.cf32")));
    assert_eq!((&stated["version"], &stated["commit"]), (&VERSION.into(), &commit.as_str().into()));
    assert_eq!(stated["first_sample"], 150);
    // What was chosen is stated.
    let said = lenakkum(&folder, "run one.sigmf-meta --statement --capture 0 --start 150samples");
    let stated = "\n(date 2026-11-16T10:00:00.050Z)\n(capture 0)\n(first 150)\n(format cf32_le)\n(rate 3000)\n";
    assert!(text(&said.stdout).contains(stated), "{}", text(&said.stdout));
    let said = lenakkum(&folder, "run one.cf32 one.sigmf-data --rate 3000 --statement");
    let lines = text(&said.stdout);
    let end = |date: &str| {
        let recording = sha256(&folder, "one.cf32");
        format!(
            ", recording {recording}, {date}format cf32_le, rate 3000, hint 0, version {VERSION}, commit {commit}, \
             library {digest}"
        )
    };
    let ends: Vec<bool> =
        lines.lines().zip([end(""), end("date 2026-11-16T10:00:00Z, ")]).map(|(l, e)| l.ends_with(&e)).collect();
    assert_eq!(ends, [true, true], "{lines}");
    // A refusal is stated too.
    let said = text(&lenakkum(&folder, "run one.cf32 --rate 100 --statement").stdout);
    assert!(said.starts_with("(run 1)\n(statement\n(file \"one.cf32\")\n(recording "), "{said}");
}

/// A proxy that answers nothing and passes on the first line of each request.
fn proxy() -> (u16, Receiver<String>) {
    let listener = TcpListener::bind("127.0.0.1:0").unwrap();
    let port = listener.local_addr().unwrap().port();
    let (send, receive) = mpsc::channel();
    let answer = |stream: TcpStream| {
        let mut line = String::new();
        let _ = BufReader::new(&stream).read_line(&mut line);
        let _ = (&stream).write_all(b"HTTP/1.1 404 Not Found\r\nContent-Length: 0\r\n\r\n");
        line
    };
    thread::spawn(move || listener.incoming().flatten().try_for_each(|stream| send.send(answer(stream))));
    (port, receive)
}

/// A browser without a window, and with nothing of its own to do.
fn chromium(folder: &Path) -> Command {
    let mut chromium = Command::new("chromium");
    chromium.args(["--headless", "--no-sandbox", "--disable-gpu", "--no-first-run", "--disable-background-networking"]);
    chromium.args(["--disable-component-update", "--disable-sync", "--disable-extensions"]);
    chromium.arg(format!("--user-data-dir={}", folder.join("profile").display()));
    chromium
}

/// What a browser makes of a page, and what it asked the world for.
fn opened(folder: &Path, page: &str) -> (String, Vec<String>) {
    let (port, asked) = proxy();
    let mut chromium = chromium(folder);
    chromium.args(["--dump-dom", &format!("--proxy-server=http://127.0.0.1:{port}")]);
    chromium.arg(format!("file://{}", folder.join(page).display()));
    let said = chromium.output().expect("chromium was not found (Debian: apt-get install -y chromium)");
    assert!(said.status.success(), "{}", text(&said.stderr));
    // The browser asks for things of its own too, of hosts that the page does not name.
    let written = fs::read_to_string(folder.join(page)).unwrap();
    let mut lines = Vec::new();
    while let Ok(line) = asked.recv_timeout(Duration::from_millis(300)) {
        if host(&line).map_or(false, |host| written.contains(host)) {
            lines.push(line);
        }
    }
    (text(&said.stdout), lines)
}

/// The host that a request asks of: `GET http://HOST/..` or `CONNECT HOST:443 ..`.
fn host(line: &str) -> Option<&str> {
    let address = line.split(' ').nth(1)?;
    let address = address.strip_prefix("http://").unwrap_or(address);
    address.split(&['/', ':']).next().filter(|host| !host.is_empty())
}

#[test]
fn a_page_says_all_of_it_and_fetches_nothing() {
    let folder = folder("page");
    fs::write(folder.join("two.cf32"), two()).unwrap();
    let captures = json!([{ "core:sample_start": 0, "core:datetime": "2026-11-16T10:00:00Z" }]);
    sigmf(&folder, "a&<b>", json!({}), captures, &one());
    fs::write(folder.join("wild.cf32"), bytes([(f64::NAN, 0.0)])).unwrap();
    let said = lenakkum(&folder, "run two.cf32 a&<b>.sigmf-meta wild.cf32 none.cf32 --rate 3000 --page all.html");
    assert_eq!(said.status.code(), Some(2));
    let (dom, lines) = opened(&folder, "all.html");
    let (commit, digest) = library(&folder);
    let texts = [
        "The strong sender of 4 recordings",
        "The strong sender was taken off. What is left is a recording without its fitted key-downs.",
        "<b>holds</b>: 21 key-downs were fitted (at least 20 are needed)",
        "21: 21 listed, 0 too short to list",
        "a&amp;&lt;b&gt;.sigmf-meta</h2>",
        "The recording was kept: every sample stays as it was.",
        "<b>fails</b>: 1 key-down was fitted (at least 20 are needed)",
        "no gaps to look at",
        "2026-11-16T10:00:00Z",
        "It was not run: wild.cf32: refused (3): a sample is infinite or not a number",
        "It was not run: none.cf32: No such file or directory",
        &format!("lenakkum {VERSION}"),
        &commit,
        &digest,
        &sha256(&folder, "two.cf32"),
        &sha256(&folder, "a&<b>.sigmf-data"),
    ];
    for words in texts {
        assert!(dom.contains(words), "{words}");
    }
    let place = |words: &str| dom.find(words).unwrap();
    assert!(place("<h2>two.cf32") < place("<h2>a&amp;") && place("<h2>wild.cf32") < place("<h2>none.cf32"));
    #[cfg(feature = "pictures")]
    assert_eq!((dom.matches("<svg").count(), dom.matches("threshold").count()), (2, 2));
    assert_eq!(lines, Vec::<String>::new());
    let page = fs::read_to_string(folder.join("all.html")).unwrap();
    assert!(!["src=", "url(", "@import", "<script", "<link"].iter().any(|word| page.contains(word)));
    assert_eq!(page.matches("href=").count(), page.matches("href=\"#").count());
    // Were there anything to fetch, it would have been seen.
    let open = page.replace("default-src 'none'", "default-src *");
    let fetching = |page: &str| page.replace("<h1>", "<img src=\"http://tank.invalid/1.png\"><h1>");
    fs::write(folder.join("open.html"), fetching(&open)).unwrap();
    let (_, lines) = opened(&folder, "open.html");
    assert_eq!((lines.len(), lines[0].contains("http://tank.invalid/1.png")), (1, true), "{lines:?}");
    // And what should get into a page all the same is not fetched.
    fs::write(folder.join("closed.html"), fetching(&page)).unwrap();
    let (_, lines) = opened(&folder, "closed.html");
    assert_eq!(lines, Vec::<String>::new());
}

#[test]
fn a_page_is_written_whole_or_not_at_all() {
    let folder = folder("page_wrong");
    fs::write(folder.join("one.cf32"), one()).unwrap();
    let said = lenakkum(&folder, "run one.cf32 --rate 3000 --page one.html");
    assert_eq!((said.status.code(), text(&said.stdout)), (Some(0), ONE.to_string()));
    let page = fs::read_to_string(folder.join("one.html")).unwrap();
    assert!(page.contains("<h1>The strong sender of one.cf32</h1>") && page.ends_with("</html>\n"));
    for (words, line) in [
        ("one.cf32 --rate 3000 --page one.pdf", "one.pdf: a page's name ends in .html"),
        ("one.cf32 --rate 3000 --page none/one.html", "none/one.html: there is no such folder"),
        ("one.cf32 --rate 3000 --out x.html --page x.html", "x.html: it would be written twice"),
    ] {
        assert_wrong(&lenakkum(&folder, &format!("run {words}")), line, words);
    }
    assert_eq!(names(&folder), ["one.cf32", "one.html"]);
}

/// Where nothing could be run the page says so, and no older one stays as if it were of this run.
#[test]
fn a_page_of_nothing_that_was_run() {
    let folder = folder("page_none");
    fs::write(folder.join("one.cf32"), one()).unwrap();
    let page = || fs::read_to_string(folder.join("page.html")).unwrap();
    assert_eq!(lenakkum(&folder, "run one.cf32 --rate 3000 --page page.html").status.code(), Some(0));
    assert!(page().contains("was kept") && !page().contains("not run"));
    let said = lenakkum(&folder, "run one.cf32 --rate 100 --page page.html");
    assert_eq!((said.status.code(), text(&said.stdout)), (Some(1), "(run 1)\n".to_string()));
    assert!(page().contains("It was not run: one.cf32: refused (1): ") && !page().contains("was kept"));
    let words = "run none.cf32 --rate 3000 --page page.html";
    assert_wrong(&lenakkum(&folder, words), "none.cf32: No such file", words);
    assert!(page().contains("It was not run: none.cf32: No such file"));
}

/// What was run and could not be written is not called one that was not run, neither on a page nor at the end.
#[test]
fn a_page_of_what_could_not_be_written() {
    let folder = folder("page_unwritten");
    fs::write(folder.join("one.cf32"), one()).unwrap();
    fs::write(folder.join("wild.cf32"), bytes([(f64::NAN, 0.0)])).unwrap();
    let words = "run one.cf32 wild.cf32 none.cf32 --rate 3000 --out none/{name}.cf32 --page page.html";
    let said = lenakkum(&folder, words);
    assert_eq!((said.status.code(), text(&said.stdout)), (Some(2), String::new()));
    assert!(text(&said.stderr).starts_with("lenakkum: 3 of 3 went wrong:\nlenakkum: none/one.cf32: No such file"));
    let page = fs::read_to_string(folder.join("page.html")).unwrap();
    let sections: Vec<&str> = page.split("<section ").skip(1).collect();
    for (section, verdict) in sections.iter().zip([
        "It was run, and what came of it could not be written: none/one.cf32: No such file",
        "It was not run: wild.cf32: refused (3): ",
        "It was not run: none.cf32: No such file",
    ]) {
        assert!(section.contains(&format!("<p class=\"verdict\">{verdict}")), "{section}");
    }
    for (i, brief) in ["run, and could not be written", "not run", "not run"].iter().enumerate() {
        assert!(page.contains(&format!("<a href=\"#r{i}\">")) && page.contains(&format!("</a></th><td>{brief}</td>")));
    }
    assert_eq!((sections.len(), page.matches("<td>not run</td>").count()), (3, 2));
}

/// On paper each recording begins a new sheet. One that was run has two, the second with its picture, which is not cut.
#[test]
fn a_page_is_printed_with_a_sheet_for_each_recording() {
    let folder = folder("paper");
    fs::write(folder.join("one.cf32"), one()).unwrap();
    fs::write(folder.join("two.cf32"), two()).unwrap();
    let sheets = |files: &str| {
        lenakkum(&folder, &format!("run {files} --rate 3000 --page all.html"));
        let mut chromium = chromium(&folder);
        chromium.arg(format!("--print-to-pdf={}", folder.join("all.pdf").display()));
        let said = chromium.arg(format!("file://{}", folder.join("all.html").display())).output().unwrap();
        assert!(said.status.success(), "{}", text(&said.stderr));
        let printed = String::from_utf8_lossy(&fs::read(folder.join("all.pdf")).unwrap()).into_owned();
        let count = |kind: &str| printed.matches(kind).count();
        count("/Type /Page") - count("/Type /Pages")
    };
    // The first of the four, each a line or two, stands below the table of all.
    assert_eq!(sheets("a.cf32 b.cf32 c.cf32 d.cf32"), 4);
    let drawn = if cfg!(feature = "pictures") { 2 } else { 1 };
    assert_eq!(sheets("two.cf32"), drawn);
    assert_eq!(sheets("two.cf32 one.cf32"), 2 * drawn);
}
