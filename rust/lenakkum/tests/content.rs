//! What is no recording is told by its content, and what the command says to do is done.

mod common;

use common::*;
use serde_json::json;
use std::fs;
use std::path::{Path, PathBuf};
use std::process::Output;

/// A folder with a recording in which a sender is taken off.
fn with_two(name: &str) -> PathBuf {
    let folder = folder(name);
    fs::write(folder.join("two.cf32"), two()).unwrap();
    folder
}

fn made(folder: &Path, line: &str) {
    let made = bash(folder, line);
    assert_eq!(made.status.code(), Some(0), "{line}: {}", text(&made.stderr));
}

/// The commands that it says to give, one after another. It was wrong, in these words.
fn advice(said: &Output, words: &str) -> String {
    assert_wrong(said, words, words);
    let line = text(&said.stderr);
    line.split('`').skip(1).step_by(2).collect::<Vec<_>>().join(" && ")
}

fn assert_taken(said: &Output, asked: &str) {
    assert!(text(&said.stdout).ends_with("(hypothesis two)\n(buffer taken))\n"), "{asked}: {}", text(&said.stderr));
}

/// How sox writes it, its name, and the name that sox has for its kind.
const SOUNDS: [(&str, &str, &str); 7] = [
    ("-e float -b 32", "the tank.wav", "wav"),
    ("-B -e float -b 32", "the big.wav", "wav"),
    ("-e float -b 32", "the tank.w64", "w64"),
    ("-e float -b 32", "the tank.au", "au"),
    ("-b 24", "the tank.aiff", "aiff"),
    ("-b 24", "the tank.flac", "flac"),
    ("-C 10", "the tank.ogg", "ogg"),
];

#[test]
fn sounds_of_two_channels_go_through_sox() {
    let folder = with_two("sounds");
    for (how, name, kind) in SOUNDS {
        made(&folder, &format!("sox -t f32 -r 3000 -c 2 two.cf32 {how} '{name}' && cp '{name}' named.iq"));
        let told = format!("it is a sound file ({kind}): if its two channels are I and Q, ");
        let by_name = advice(&bash(&folder, &format!("lenakkum run '{name}'")), &format!("{name}: {told}"));
        assert_eq!(by_name, format!("sox '{name}' -t f32 -c 2 - | lenakkum run - --rate 3000"));
        assert_taken(&bash(&folder, &by_name), name);
        let by_content = advice(&lenakkum(&folder, "run named.iq"), &told);
        assert_eq!(by_content, format!("sox -t {kind} named.iq -t f32 -c 2 - | lenakkum run - --rate 3000"));
        assert_taken(&bash(&folder, &by_content), name);
        let piped = bash(&folder, &format!("cat '{name}' | lenakkum run - --rate 3000 --format ci16"));
        let piped = advice(&piped, &format!("standard input: {told}"));
        // Of these sox cannot read one from a pipe.
        if kind == "w64" {
            assert_eq!(piped, "sox FILE.w64 -t f32 -c 2 - | lenakkum run - --rate 3000");
            continue;
        }
        assert_eq!(piped, format!("sox -t {kind} - -t f32 -c 2 - | lenakkum run - --rate 3000"));
        assert_taken(&bash(&folder, &format!("cat '{name}' | {piped}")), name);
    }
}

/// Made two, one channel would be a recording that nothing took.
#[test]
fn sounds_of_other_channels_are_no_recordings() {
    let folder = with_two("channels");
    for (how, name, _) in SOUNDS {
        for (mix, words) in [("1", "it has one channel, and an I/Q recording has two"), ("1 2 1", "it has 3 channels")]
        {
            made(&folder, &format!("sox -t f32 -r 3000 -c 2 two.cf32 {how} '{name}' remix {mix}"));
            let said = bash(&folder, &format!("lenakkum run '{name}' --rate 3000"));
            assert_wrong(&said, words, name);
            assert!(!text(&said.stderr).contains("sox "), "{name}");
        }
    }
}

/// The format is not always the first thing in a WAV, and where it is too far away sox has to look for itself.
#[test]
fn the_head_of_a_wav() {
    let folder = folder("wav");
    let format = [&b"fmt \x10\0\0\0\x03\0\x02\0"[..], &8_000_u32.to_le_bytes(), &[0; 8]].concat();
    let wav = |name: &[u8], before: usize| {
        let other = [b"JUNK", &(before as u32).to_le_bytes()[..], &vec![0; before + before % 2]].concat();
        [name, b"\0\0\0\0WAVE", &other, &format, &[0; 2_000]].concat()
    };
    for (name, before, words) in [
        (b"RIFF", 3, "`sox tank.wav -t f32 -c 2 - | lenakkum run - --rate 8000`"),
        (b"RF64", 28, "`sox tank.wav -t f32 -c 2 - | lenakkum run - --rate 8000`"),
        (b"RIFF", 2_000, "`sox tank.wav -t f32 - remix 1 2 | lenakkum run - --rate HZ`"),
        (b"BW64", 28, "write them anew as pairs of f32 (sox does not read it)"),
    ] {
        fs::write(folder.join("tank.wav"), wav(name, before)).unwrap();
        assert_wrong(&lenakkum(&folder, "run tank.wav"), words, words);
    }
}

/// What Opus leaves is no recording, and sox's reader of Vorbis would not read it: no command is named.
#[test]
fn opus_is_no_recording() {
    let folder = folder("opus");
    let opus = |channels: u8| {
        let page = [&b"OggS\0\x02"[..], &[0; 20], b"\x01\x13"].concat();
        let head = [&b"OpusHead\x01"[..], &[channels], b"\x38\x01", &8_000_u32.to_le_bytes(), &[0; 3]].concat();
        [page, head, vec![7; 2_000]].concat()
    };
    for (channels, words) in [
        (1, "it has one channel, and an I/Q recording has two\n"),
        (2, "it keeps what an ear hears, which is no I/Q recording: run what it was made from\n"),
        (6, "it has 6 channels, and an I/Q recording has two\n"),
    ] {
        for name in ["tank.opus", "tank.ogg", "tank.iq"] {
            fs::write(folder.join(name), opus(channels)).unwrap();
            let said = lenakkum(&folder, &format!("run {name} --rate 48000"));
            assert_wrong(&said, &format!("lenakkum: {name}: it is a sound file (opus): {words}"), name);
        }
    }
    // A head that is cut before its channels.
    fs::write(folder.join("cut.opus"), &opus(2)[..37]).unwrap();
    let said = lenakkum(&folder, "run cut.opus --rate 48000");
    assert_wrong(&said, "it is a sound file (opus): it keeps what an ear hears", "cut");
}

/// What sox does not read although it stands in Ogg: no command is named.
#[test]
fn ogg_that_sox_does_not_read() {
    let folder = folder("other_ogg");
    let page = [&b"OggS\0\x02"[..], &[0; 20], b"\x01\x33"].concat();
    let anew = "if its two channels are I and Q, write them anew as pairs of f32 (sox does not read it)\n";
    let through = "if its two channels are I and Q, `sox tank.ogg -t f32 - remix 1 2 | lenakkum run - --rate HZ`\n";
    for (head, kind, words) in [
        (&b"\x7fFLAC\x01\0\0\x01fLaC"[..], "FLAC in ogg", anew),
        (b"Speex   1.2", "Speex in ogg", anew),
        // Vorbis may come behind it, and then sox reads that.
        (b"\x80theora", "ogg", through),
        (b"", "ogg", through),
    ] {
        fs::write(folder.join("tank.ogg"), [&page[..], head, &[7; 2_000]].concat()).unwrap();
        let line = format!("lenakkum: tank.ogg: it is a sound file ({kind}): {words}");
        assert_wrong(&lenakkum(&folder, "run tank.ogg"), &line, kind);
    }
}

/// An old head of a file in a tar archive, without a mark.
fn old_tar(folder: &Path) -> Vec<u8> {
    made(folder, "tar --format=v7 -cf old.tar two.cf32");
    let tar = fs::read(folder.join("old.tar")).unwrap();
    assert!(&tar[257..262] != b"ustar");
    tar
}

fn utf16(order: fn(u16) -> [u8; 2]) -> Vec<u8> {
    "\u{feff}time, volume\r\n10:00, 3\u{1f404}\r\n".encode_utf16().flat_map(order).collect()
}

/// A text and then nothing, as far as this.
fn padded(text: &[u8], size: usize) -> Vec<u8> {
    [text, &vec![0; size - text.len()]].concat()
}

#[test]
fn files_of_other_kinds_are_told_by_their_content() {
    let folder = with_two("kinds");
    made(&folder, "tar -cf new.tar two.cf32");
    let hdf5 = b"\x89HDF\r\n\x1a\n";
    let cases = [
        (fs::read(folder.join("new.tar")).unwrap(), "it is a tar archive: one of SigMF has a name that ends in .sigmf"),
        (old_tar(&folder), "it is a tar archive: one of SigMF has a name that ends in .sigmf, else `tar -xf no.cf32`"),
        (padded(b"PK\x03\x04\x14", 64), "it is a zip archive: `unzip no.cf32`, and run what was in it"),
        (
            padded(b"\x93NUMPY\x01\0", 64),
            "it is an array of numpy: write it anew as bare samples with `a.astype('<c8')",
        ),
        (padded(b"\x89PNG\r\n\x1a\n", 64), "it is a picture (PNG): name the recording"),
        (padded(hdf5, 64), "it is an HDF5 file: write its samples anew as bare ones"),
        ([&[0; 512], &hdf5[..]].concat(), "it is an HDF5 file: write its samples anew as bare ones"),
        (padded(b"MATLAB 5.0 MAT-file, Platform: GLNXA64", 256), "it is a file of MATLAB: write its samples anew"),
        ([&padded(b"MATLAB 7.3 MAT-file", 512), &hdf5[..]].concat(), "it is a file of MATLAB: write its samples anew"),
        (b"time, volume\n10:00, 3\n".to_vec(), "it is text, and a recording is binary: pairs of f32"),
        (utf16(u16::to_le_bytes), "it is text, and a recording is binary: pairs of f32"),
        (utf16(u16::to_be_bytes), "it is text, and a recording is binary: pairs of f32"),
        (b"{\"global\": {}}\n".to_vec(), "it is JSON and no samples: metadata of SigMF have a name that ends in"),
    ];
    for (content, words) in cases {
        fs::write(folder.join("no.cf32"), &content).unwrap();
        assert_wrong(&lenakkum(&folder, "run no.cf32 --rate 3000"), &format!("no.cf32: {words}"), words);
        // What metadata call samples has to be samples.
        sigmf(&folder, "no", json!({}), json!([]), &content);
        let what = words.strip_prefix("it is ").unwrap().split(':').next().unwrap();
        assert_wrong(
            &lenakkum(&folder, "run no.sigmf-meta"),
            &format!("its file of samples is {what}: SigMF's"),
            words,
        );
        // There is no file to unpack where it comes through a pipe.
        let said = fed(&folder, "run - --rate 3000", content);
        let piped = match what {
            "a tar archive" => "it is a tar archive: write it to a file, with a name that ends in .sigmf if it is one",
            "a zip archive" => "it is a zip archive: write it to a file, `unzip` that, and run what was in it",
            _ => words,
        };
        assert_wrong(&said, &format!("standard input: {piped}"), words);
    }
}

/// The first bytes of another kind alone do not make a recording one.
#[test]
fn recordings_that_begin_like_others() {
    let folder = folder("like");
    let small = [(0.25, 0.5); 600];
    for (first, format) in [
        (&b"\xff\xfe\x01\x3f"[..], "cf32"),
        (b"\xfe\xff\x01\x3f", "cf32"),
        (b".snd\0\0\0\x01", "ci16"),
        (b"\x1f\x8b\x08\xff", "cf32"),
        (b"riff", "ci16"),
    ] {
        let mut data = bytes(small);
        data[..first.len()].copy_from_slice(first);
        fs::write(folder.join("like.iq"), &data).unwrap();
        let said = lenakkum(&folder, &format!("run like.iq --rate 3000 --format {format}"));
        assert_eq!(said.status.code(), Some(0), "{first:?}: {}", text(&said.stderr));
    }
    // Among single bytes a text may be samples.
    fs::write(folder.join("text.cu8"), "samples of a byte each, all of them letters").unwrap();
    assert_eq!(lenakkum(&folder, "run text.cu8 --rate 3000 --format ci8 --length 20samples").status.code(), Some(0));
}

#[test]
fn what_is_compressed_can_be_run_by_what_is_said() {
    let folder = with_two("compressed");
    sigmf(&folder, "pair", json!({}), json!([]), &two());
    let whole: Vec<u8> = valley(21, 60.0, 5e-3)
        .iter()
        .flat_map(|&(re, im)| [re, im])
        .flat_map(|x| ((x * 20_000.0) as i16).to_le_bytes())
        .collect();
    fs::write(folder.join("whole.ci16"), &whole).unwrap();
    fs::write(folder.join("big.iq"), whole.chunks(2).flat_map(|two| [two[1], two[0]]).collect::<Vec<u8>>()).unwrap();
    made(
        &folder,
        "tar -cf tank.sigmf pair.sigmf-meta pair.sigmf-data && gzip -k two.cf32 tank.sigmf whole.ci16 big.iq && \
         gzip pair.sigmf-data && gzip -c tank.sigmf >'the tank.sigmf' && rm tank.sigmf",
    );
    for (words, commands) in [
        ("two.cf32.gz", "zcat two.cf32.gz | lenakkum run - --rate HZ"),
        ("whole.ci16.gz", "zcat whole.ci16.gz | lenakkum run - --rate HZ --format ci16"),
        ("big.iq.gz --format ci16_be", "zcat big.iq.gz | lenakkum run - --rate HZ --format ci16_be"),
        ("tank.sigmf.gz", "zcat tank.sigmf.gz > tank.sigmf && lenakkum run tank.sigmf"),
        (
            "'the tank.sigmf'",
            "zcat 'the tank.sigmf' > 'the tank-unpacked.sigmf' && lenakkum run 'the tank-unpacked.sigmf'",
        ),
        ("pair.sigmf-data.gz", "zcat pair.sigmf-data.gz > pair.sigmf-data && lenakkum run pair.sigmf-data"),
        ("- <two.cf32.gz", "zcat | lenakkum run - --rate HZ"),
    ] {
        let said = advice(&bash(&folder, &format!("lenakkum run {words}")), "it is compressed: `");
        assert_eq!(said, commands, "{words}");
        let input = if words.starts_with('-') { "cat two.cf32.gz | " } else { "" };
        assert_taken(&bash(&folder, &format!("{input}{}", said.replace("HZ", "3000"))), words);
    }
    made(&folder, "tar -czf all.tar.gz two.cf32 && cp all.tar.gz all.tgz");
    for name in ["all.tar.gz", "all.tgz"] {
        assert_eq!(advice(&lenakkum(&folder, &format!("run {name}")), "it is compressed"), format!("tar -xzf {name}"));
    }
}

/// One line, of which a terminal does nothing but show it.
fn assert_plain(said: &Output, words: &str) {
    assert_wrong(said, words, words);
    let line = text(&said.stderr);
    let turns = ['\u{61c}', '\u{200e}', '\u{200f}', '\u{202e}'];
    assert!(!line.trim_end_matches('\n').contains(|c: char| c.is_control() || turns.contains(&c)), "{line:?}");
}

#[test]
fn what_a_file_has_does_nothing_to_a_terminal() {
    let folder = with_two("plain");
    made(&folder, "gzip -c two.cf32 >zipped.sigmf && sox -t f32 -r 3000 -c 2 two.cf32 -t wav heard.sigmf");
    fs::write(folder.join("text.sigmf"), "one\x0ctwo\n").unwrap();
    fs::write(folder.join("bytes.sigmf"), (0..=255).cycle().take(2_048).collect::<Vec<u8>>()).unwrap();
    fs::write(folder.join("empty.sigmf"), "").unwrap();
    for (name, words) in [
        ("zipped.sigmf", "it is compressed"),
        ("heard.sigmf", "it is a sound file (wav)"),
        ("text.sigmf", "it is text, and it is not a tar archive, as SigMF's are"),
        ("bytes.sigmf", "it is not a tar archive, as SigMF's are"),
        ("empty.sigmf", "it is empty"),
    ] {
        assert_plain(&lenakkum(&folder, &format!("run {name}")), words);
        let said = json_lines(&lenakkum(&folder, &format!("run {name} --json"))).remove(0);
        let problem = said["problem"].as_str().unwrap();
        assert!(problem.contains(words) && !problem.contains(char::is_control), "{problem:?}");
        // What to do with bare samples is no advice on an archive.
        assert!(!problem.contains("pairs of f32"), "{problem:?}");
    }
    for (global, captures, words) in [
        (json!({ "core:datatype": "c\u{1b}[31m\n" }), json!([]), r"c\u{1b}[31m\n"),
        (json!({ "core:dataset": "a\u{9b}\u{202e}b" }), json!([]), r"a\u{9b}\u{202e}b: No such file"),
        (json!({ "core:dataset": "a\u{61c}\u{200e}\u{200f}b" }), json!([]), r"a\u{61c}\u{200e}\u{200f}b: No such file"),
        (json!({}), json!([{ "core:datetime": "now\n(run 0)" }]), "a capture: core:datetime is not a date"),
    ] {
        sigmf(&folder, "odd", global, captures, &one());
        assert_plain(&lenakkum(&folder, "run odd.sigmf-meta"), words);
    }
}

#[test]
fn names_that_have_control_characters() {
    let folder = with_two("names");
    made(&folder, r"cp two.cf32 $'a\e[31m\nb.cf32' && gzip -k $'a\e[31m\nb.cf32'");
    assert_plain(&bash(&folder, r"lenakkum run $'a\e[31m\nc' --rate 3000"), r"a\u{1b}[31m\nc: No such file");
    let said = bash(&folder, r"lenakkum run $'a\e[31m\nb.cf32.gz'");
    assert_plain(&said, r"a\u{1b}[31m\nb.cf32.gz: it is compressed");
    assert_taken(&bash(&folder, &advice(&said, "zcat").replace("HZ", "3000")), "zcat");
    let said = bash(&folder, r"lenakkum run $'a\e[31m\nb.cf32' two.cf32 --rate 3000");
    let lines = text(&said.stdout);
    assert!(lines.lines().count() == 2 && lines.starts_with(r"a\u{1b}[31m\nb.cf32: two ("), "{lines}");
    let said = bash(&folder, r"lenakkum run $'a\e[31m\nb.cf32' --rate 100");
    assert!(text(&said.stderr).starts_with(r"lenakkum: a\u{1b}[31m\nb.cf32: refused (1): "));
    // On a terminal there is a bar with the name of the last that is done.
    let said = bash(&folder, "script -qec 'lenakkum run a*b.cf32 two.cf32 --rate 3000' /dev/null </dev/null");
    let shown = text(&said.stdout);
    assert!(shown.contains(r"1/2 a\u{1b}[31m\nb.cf32") && !shown.contains("\u{1b}[31m"), "{shown:?}");
}
