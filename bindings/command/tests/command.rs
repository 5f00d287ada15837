//! Runs the built program on the cards and on simulated frames. Each file of tests/expected, and docs/COMMAND.md in its `console` blocks, has lines of shell
//! after `$ ` and the output that they must give. With LOAMCHALICE_WRITE=1 the files are rewritten, to be reviewed before they are kept.
use std::fs::{self, File};
use std::io::Write;
use std::os::unix::fs::symlink;
use std::path::{Path, PathBuf};
use std::process::{Command, Output, Stdio};

const PROGRAM: &str = env!("CARGO_BIN_EXE_loamchalice");

fn repository() -> PathBuf {
    Path::new(env!("CARGO_MANIFEST_DIR")).join("../..")
}

/// Makes an empty folder of this name, with the cards in it.
fn room(name: &str) -> PathBuf {
    let room = Path::new(env!("CARGO_TARGET_TMPDIR")).join(name);
    let _ = fs::remove_dir_all(&room);
    fs::create_dir_all(&room).unwrap();
    symlink(repository().join("cards").canonicalize().unwrap(), room.join("cards")).unwrap();
    room
}

/// The output of a line of shell, errors included.
fn shell(room: &Path, line: &str) -> String {
    let folder = Path::new(PROGRAM).parent().unwrap().display();
    let path = format!("{folder}:{}", std::env::var("PATH").unwrap());
    let output = Command::new("sh").args(["-c", &format!("exec 2>&1; {line}")]).current_dir(room).env("PATH", path).stdin(Stdio::null()).output().unwrap();
    String::from_utf8_lossy(&output.stdout).into_owned()
}

/// Lines of shell with their output, which must end with a newline: or else the next `$ ` would not begin a line.
fn session(room: &Path, text: &str) -> String {
    text.lines().filter(|line| line.starts_with("$ ")).map(|line| format!("{line}\n{}", whole_lines(line, shell(room, &line[2..])))).collect()
}

fn whole_lines(line: &str, made: String) -> String {
    assert!(made.is_empty() || made.ends_with('\n'), "{line} ends within a line");
    made
}

/// The text of a paper with its `console` blocks run again, all in one folder.
fn paper(room: &Path, text: &str) -> String {
    let mut parts = text.split("```console\n");
    let mut made = parts.next().unwrap_or_default().to_string();
    for part in parts {
        let (block, rest) = part.split_once("```\n").expect("a block ends");
        made += &format!("```console\n{}```\n{rest}", session(room, block));
    }
    made
}

fn compared(path: &Path, stands: &str, made: &str) {
    if std::env::var_os("LOAMCHALICE_WRITE").is_some() {
        fs::write(path, made).unwrap();
        return;
    }
    let other = stands.lines().zip(made.lines()).position(|(a, b)| a != b).unwrap_or(stands.lines().count().min(made.lines().count()));
    let line = |text: &str| text.lines().nth(other).unwrap_or("(no line)").to_string();
    assert!(stands == made, "{}: line {}: {}\nand now: {}", path.display(), other + 1, line(stands), line(made));
}

#[test]
fn sessions_are_as_stored() {
    let folder = Path::new(env!("CARGO_MANIFEST_DIR")).join("tests/expected");
    let mut count = 0;
    for entry in fs::read_dir(folder).unwrap() {
        let path = entry.unwrap().path();
        let stands = fs::read_to_string(&path).unwrap();
        compared(&path, &stands, &session(&room(path.file_stem().unwrap().to_str().unwrap()), &stands));
        count += 1;
    }
    assert!(count >= 5, "{count} files");
}

#[test]
fn the_paper_and_its_pictures_are_as_stored() {
    let (docs, room) = (repository().join("docs"), room("paper"));
    let path = docs.join("COMMAND.md");
    let stands = fs::read_to_string(&path).unwrap();
    compared(&path, &stands, &paper(&room, &stands));
    for name in ["picture-mlx90641.svg", "picture-mlx90640.svg"] {
        let made = fs::read_to_string(room.join(name)).unwrap();
        balanced(&made);
        compared(&docs.join(name), &fs::read_to_string(docs.join(name)).unwrap_or_default(), &made);
    }
    let page = fs::read_to_string(room.join("hand.html")).unwrap();
    balanced(&page.replace("<meta charset=\"utf-8\">", "").replace("<!DOCTYPE html>", "").replace("<br>", ""));
}

/// Every tag is closed in order, and the text has no unescaped character.
fn balanced(xml: &str) {
    let mut open: Vec<&str> = Vec::new();
    for part in xml.split('<').skip(1) {
        let (tag, text) = part.split_once('>').expect("a tag ends");
        assert!(!text.contains('>') && tag.matches('"').count() % 2 == 0, "{part}");
        assert!(
            text.split('&').skip(1).all(|name| name.starts_with("amp;") || name.starts_with("lt;") || name.starts_with("gt;") || name.starts_with("quot;")),
            "{part}"
        );
        let name = tag.split_whitespace().next().unwrap_or_default();
        match name.strip_prefix('/') {
            Some(name) => assert_eq!(open.pop(), Some(name)),
            None if tag.ends_with('/') => {}
            None => open.push(name),
        }
    }
    assert!(open.is_empty(), "{open:?}");
}

/// A frame whose pixels all read alike, as from a covered camera: the remaining noise and odd pixels must not look like an alarm.
#[test]
fn an_even_frame_stays_dark() {
    let room = with_good_frame("even");
    let mut frame = fs::read(room.join("good.frm")).unwrap();
    frame[24..].copy_from_slice(&(-620i16).to_be_bytes().repeat(192));
    fs::write(room.join("even.frm"), frame).unwrap();
    assert_eq!(behaved(&room, &["show", "cards/sound.bin", "even.frm", "-o", "even.svg"], b""), 0);
    let svg = fs::read_to_string(room.join("even.svg")).unwrap();
    let squares: Vec<&str> = svg.lines().filter(|line| line.starts_with("<path d=\"M") && line.contains("h46v46h-46z")).collect();
    assert_eq!(squares.len(), 192);
    for square in squares {
        let colour = u32::from_str_radix(&square.split_once("fill=\"#").unwrap().1[..6], 16).unwrap();
        let [_, r, g, b] = colour.to_be_bytes().map(u32::from);
        assert!(299 * r + 587 * g + 114 * b < 70_000, "{square}");
    }
}

fn run(room: &Path, words: &[&str], input: &[u8]) -> Output {
    let mut child = Command::new(PROGRAM).args(words).current_dir(room).stdin(Stdio::piped()).stdout(Stdio::piped()).stderr(Stdio::piped()).spawn().unwrap();
    // A program that needs no input may have ended before it comes.
    let _ = child.stdin.take().unwrap().write_all(input);
    child.wait_with_output().unwrap()
}

/// The program ends with a status of its own, and writes a sentence if that is 2.
fn behaved(room: &Path, words: &[&str], input: &[u8]) -> i32 {
    let output = run(room, words, input);
    let said = String::from_utf8_lossy(&output.stderr).into_owned();
    let status = output.status.code().unwrap_or(-1);
    assert!((0..=2).contains(&status) && !said.contains("panicked"), "{words:?}: {status}, {said}");
    assert!(status != 2 || !said.trim().is_empty(), "{words:?} says nothing");
    status
}

/// Each command, with a file for each argument that it reads.
const READERS: [&[&str]; 16] = [
    &["cards", "FILE"],
    &["cards", "--json", "--camera", "40", "FILE"],
    &["card", "FILE"],
    &["card", "FILE", "--camera", "40"],
    &["frame", "FILE", "good.frm"],
    &["frame", "cards/sound.bin", "FILE", "--limit", "60", "--json"],
    &["frame", "cards/bigger.bin", "FILE", "--ranged"],
    &["show", "cards/sound.bin", "FILE", "-o", "made.svg"],
    &["show", "cards/bigger.bin", "FILE", "-o", "made.html"],
    &["simulate", "FILE", "-o", "made.frm"],
    &["simulate", "FILE", "--camera", "40", "-o", "made.frm"],
    &["scrub", "FILE", "-o", "made.bin"],
    &["words", "FILE"],
    &["write", "FILE", "-o", "made.bin"],
    &["burn-plan", "FILE", "cards/sound.bin"],
    &["burn-plan", "cards/sound.bin", "FILE", "--camera", "41"],
];

fn on_all(room: &Path, file: &str) -> Vec<i32> {
    READERS.iter().map(|words| behaved(room, &words.iter().map(|word| if *word == "FILE" { file } else { word }).collect::<Vec<_>>(), b"")).collect()
}

fn with_good_frame(name: &str) -> PathBuf {
    let room = room(name);
    assert_eq!(behaved(&room, &["simulate", "cards/sound.bin", "-o", "good.frm"], b""), 0);
    room
}

/// Random bytes, the same in each run.
fn noise(seed: u64, length: usize) -> Vec<u8> {
    let mut n = seed.wrapping_mul(0x9E37_79B9_7F4A_7C15) | 1;
    let mut next = || {
        n ^= n << 13;
        n ^= n >> 7;
        n ^= n << 17;
        (n >> 32) as u8
    };
    (0..length).map(|_| next()).collect()
}

#[test]
fn no_bytes_end_in_a_panic() {
    let room = with_good_frame("noise");
    let good = fs::read(room.join("good.frm")).unwrap();
    for (seed, length) in [(1, 0), (2, 1), (3, 24), (4, 408), (5, 1663), (6, 1664), (7, 1664), (8, 5000), (9, 100_000)] {
        fs::write(room.join("noise"), noise(seed, length)).unwrap();
        on_all(&room, "noise");
        behaved(&room, &["watch", "cards/sound.bin"], &noise(seed, length));
        // A valid head, followed by random RAM words and pixels.
        let mut frame = good.clone();
        let any = noise(seed + 100, frame.len());
        frame[12..22].copy_from_slice(&any[12..22]);
        frame[24..].copy_from_slice(&any[24..]);
        fs::write(room.join("noise"), &frame).unwrap();
        on_all(&room, "noise");
        behaved(&room, &["watch", "cards/sound.bin", "--ranged", "--filter", "--color", "always"], &frame.repeat(20));
    }
    // Cards with one word changed: codewords of random data, so that they load with odd numbers.
    let sound = fs::read(room.join("cards/sound.bin")).unwrap();
    for seed in 0..60 {
        let mut card = sound.clone();
        let any = noise(seed, 3);
        let word = 16 + usize::from(any[0]) % 48;
        let data = u16::from_be_bytes([any[1], any[2]]) % 2048;
        card[2 * word..2 * word + 2].copy_from_slice(&loamchalice::add_checksum(data).unwrap().to_be_bytes());
        fs::write(room.join("odd.bin"), &card).unwrap();
        for words in [
            &["card", "odd.bin"][..],
            &["simulate", "odd.bin", "-o", "odd.frm"],
            &["show", "odd.bin", "good.frm", "-o", "odd.svg"],
            &["frame", "odd.bin", "good.frm", "--json"],
        ] {
            behaved(&room, words, b"");
        }
        if let Ok(svg) = fs::read_to_string(room.join("odd.svg")) {
            balanced(&svg);
        }
    }
}

#[test]
fn folders_devices_and_large_files_are_told() {
    let room = with_good_frame("large");
    fs::create_dir(room.join("folder")).unwrap();
    assert!(on_all(&room, "folder").iter().all(|status| *status == 2));
    assert!(on_all(&room, "nowhere").iter().all(|status| *status == 2));
    File::create(room.join("huge")).unwrap().set_len(1 << 40).unwrap();
    assert!(on_all(&room, "huge").iter().all(|status| *status == 2));
    assert!(on_all(&room, "/dev/zero").iter().all(|status| *status == 2));
    fs::remove_file(room.join("huge")).unwrap();
}

#[test]
fn a_closed_pipe_is_quiet() {
    let room = with_good_frame("pipe");
    for line in [
        "cards cards",
        "card cards/sound.bin",
        "frame cards/sound.bin good.frm",
        "words cards/sound.bin",
        "burn-plan cards/half.bin cards/sound.bin",
        "simulate cards/bigger.bin --frames 400 -o -",
        "watch cards/sound.bin < good.frm",
        "--help",
    ] {
        // The reader of the output is gone before anything is written.
        let made = shell(&room, &format!("(sleep 0.2; loamchalice {line}; echo status $? >&2) 2>said | true; sleep 0.1; cat said"));
        assert_eq!(made, "status 2\n", "{line}");
    }
    // Without standard output and error at all.
    for line in ["cards cards >&- 2>&-", "frame cards/sound.bin good.frm >&-", "watch cards/sound.bin <&- >&-", "nothing 2>&-"] {
        assert!(!shell(&room, &format!("loamchalice {line}")).contains("panicked"));
    }
}

/// A full disk, simulated by the shell: no file may grow, and writing reports an error.
const FULL: &str = "trap '' XFSZ; ulimit -f 0;";

// No device is ever given after `-o` here: a wrong program, run by root, would replace it by a file.
#[test]
fn a_full_disk_is_an_error_and_costs_no_file() {
    let room = with_good_frame("full");
    fs::write(room.join("kept"), b"kept").unwrap();
    for line in ["simulate cards/sound.bin -o kept", "scrub cards/sound.bin -o kept", "write cards/sound.txt -o kept", "scrub cards/sound.bin -o new"] {
        let target = line.rsplit(' ').next().unwrap();
        let made = shell(&room, &format!("{FULL} loamchalice {line}; echo $?"));
        assert!(made.ends_with(&format!("{target}: file too large\n2\n")), "{line}: {made}");
    }
    assert_eq!(fs::read(room.join("kept")).unwrap(), b"kept");
    let mut left: Vec<String> = fs::read_dir(&room).unwrap().map(|entry| entry.unwrap().file_name().to_string_lossy().into_owned()).collect();
    left.sort();
    assert_eq!(left, ["cards", "good.frm", "kept"]);
    for line in ["cards cards", "card cards/sound.bin", "frame cards/sound.bin good.frm", "words cards/sound.bin", "simulate cards/sound.bin -o -", "--help"] {
        assert_eq!(shell(&room, &format!("loamchalice {line} > /dev/full; echo $?")), "standard output: no space left on device\n2\n", "{line}");
    }
    assert_eq!(shell(&room, "loamchalice watch cards/sound.bin < good.frm > /dev/full; echo $?"), "standard output: no space left on device\n2\n");
}

/// What is not a plain file is written to directly, and is not replaced.
#[test]
fn a_pipe_by_name_is_written_to() {
    let room = with_good_frame("named");
    let line = "mkfifo pipe; timeout 10 cat pipe > got & loamchalice simulate cards/sound.bin -o pipe; wait; cmp got good.frm; test -p pipe; echo $?";
    assert_eq!(shell(&room, line), "pipe: 1 frame of an MLX90641, 408 bytes\n0\n");
    // A link is kept, and its target is replaced.
    let line = "echo old > file; ln -s file link; loamchalice simulate cards/sound.bin -o link; cmp file good.frm; test -L link; echo $?";
    assert_eq!(shell(&room, line), "link: 1 frame of an MLX90641, 408 bytes\n0\n");
}

#[test]
fn every_command_helps() {
    let room = room("help");
    for command in ["cards", "card", "frame", "show", "watch", "simulate", "scrub", "words", "write", "burn-plan"] {
        let output = run(&room, &[command, "--help"], b"");
        let text = String::from_utf8_lossy(&output.stdout).into_owned();
        assert!(output.status.success() && text.starts_with(&format!("usage: loamchalice {command} ")) && text.contains("Status 0"), "{text}");
        assert!(text.lines().all(|line| line.chars().count() <= 96), "{text}");
        assert_eq!(behaved(&room, &[command, "--nothing"], b""), 2);
        assert_eq!(behaved(&room, &[command], b""), 2);
    }
}
