//! `loamchalice`: a command for cards and frames of the heat cameras MLX90641 and MLX90640. The library computes; this reads files and shows results.
mod args;
mod burn_plan;
mod card;
mod cards;
mod fields;
mod frame;
mod frame_file;
mod json;
mod judge;
mod model;
mod page;
mod scale;
mod scene;
mod scrub;
mod show;
mod simulate;
mod stop;
mod svg;
mod terminal;
mod view;
mod watch;
mod words;

use args::{Command, Words};
use std::ffi::OsString;
use std::process::ExitCode;
use stop::{plain, tell, Done, Found, Out, Stop};

const COMMANDS: [Command; 10] = [
    Command {
        name: "cards",
        usage: "DIR|FILE... [--json]",
        brief: "a line for each card: its camera, and how it is",
        help: cards::HELP,
        valued: &["--camera"],
        flags: &["--json"],
        files: (1, usize::MAX),
        run: cards::run,
    },
    Command {
        name: "card",
        usage: "FILE",
        brief: "what stands on a card, with units, and what looks wrong",
        help: card::HELP,
        valued: &["--camera"],
        flags: &[],
        files: (1, 1),
        run: card::run,
    },
    Command {
        name: "frame",
        usage: "CARD FRAME... [--limit T] [--json]",
        brief: "the temperatures of frames as a grid",
        help: frame::HELP,
        valued: &["--camera", "--emissivity", "--reflected", "--limit"],
        flags: &["--ranged", "--filter", "--json"],
        files: (2, usize::MAX),
        run: frame::run,
    },
    Command {
        name: "show",
        usage: "CARD FRAME... -o F.svg|F.html [--limit T]",
        brief: "frames as pictures in a file",
        help: show::HELP,
        valued: &["--camera", "--emissivity", "--reflected", "--limit", "--from", "--to", "-o"],
        flags: &["--ranged", "--filter"],
        files: (2, usize::MAX),
        run: show::run,
    },
    Command {
        name: "watch",
        usage: "CARD [--limit T] < STREAM",
        brief: "frames as they come, and whether a lamp may stay up",
        help: watch::HELP,
        valued: &["--camera", "--emissivity", "--reflected", "--limit", "--from", "--to", "--color"],
        flags: &["--ranged", "--filter", "--lines"],
        files: (1, 1),
        run: watch::run,
    },
    Command {
        name: "simulate",
        usage: "CARD -o F [--scene S] [--frames N]",
        brief: "frames of a made-up scene, to try everything without a camera",
        help: simulate::HELP,
        valued: &["--camera", "--scene", "--frames", "--lost", "-o"],
        flags: &[],
        files: (1, 1),
        run: simulate::run,
    },
    Command {
        name: "scrub",
        usage: "CARD [-o F]",
        brief: "a card whose flipped bits are mended",
        help: scrub::HELP,
        valued: &["--camera", "-o"],
        flags: &[],
        files: (1, 1),
        run: scrub::run,
    },
    Command {
        name: "words",
        usage: "CARD",
        brief: "a card as lines of text, with what each word is",
        help: words::WORDS_HELP,
        valued: &["--camera"],
        flags: &[],
        files: (1, 1),
        run: words::run_words,
    },
    Command {
        name: "write",
        usage: "LINES -o F",
        brief: "a card of such lines",
        help: words::WRITE_HELP,
        valued: &["--camera", "-o"],
        flags: &[],
        files: (1, 1),
        run: words::run_write,
    },
    Command {
        name: "burn-plan",
        usage: "PRESENT WANTED",
        brief: "the steps that burn one card into another",
        help: burn_plan::HELP,
        valued: &["--camera"],
        flags: &[],
        files: (2, 2),
        run: burn_plan::run,
    },
];

fn main() -> ExitCode {
    let words: Vec<OsString> = std::env::args_os().skip(1).collect();
    let mut out = Out::new();
    let done = run(&words, &mut out);
    // Output written before an error must still appear.
    let flushed = out.flush();
    match done.and_then(|found| flushed.map(|()| found)) {
        Ok(Found::Good) => ExitCode::SUCCESS,
        Ok(Found::Bad) => ExitCode::from(1),
        Err(Stop::Closed) => ExitCode::from(2),
        Err(Stop::Said(sentence)) => {
            tell(&sentence);
            ExitCode::from(2)
        }
    }
}

fn run(words: &[OsString], out: &mut Out) -> Done {
    let Some(first) = words.first() else {
        return Err(Stop::said(format!("{}\nloamchalice: which command?", overview())));
    };
    if first == "--help" || first == "-h" || first == "help" {
        out.line(overview())?;
        return Ok(Found::Good);
    }
    if first == "--version" {
        out.line(format!("loamchalice {}", env!("CARGO_PKG_VERSION")))?;
        return Ok(Found::Good);
    }
    let Some(command) = COMMANDS.iter().find(|command| first == command.name) else {
        return Err(Stop::said(format!("loamchalice: there is no command {}; `loamchalice --help` has them all", plain(first))));
    };
    if words[1..].iter().take_while(|word| *word != "--").any(|word| word == "--help" || word == "-h") {
        out.line(format!("usage: loamchalice {} {}\n\n{}", command.name, command.usage, command.help))?;
        return Ok(Found::Good);
    }
    (command.run)(&Words::sorted(command, &words[1..])?, out)
}

fn overview() -> String {
    let mut text = "usage: loamchalice COMMAND ...\n\n".to_string();
    for command in &COMMANDS {
        text += &format!("  {:<10} {}\n", command.name, command.brief);
    }
    text + "
`loamchalice COMMAND --help` tells more. A file name of - is standard input or output.
Status 0: good. 1: something that was looked at is bad, or a lamp must go down.
2: a wrong word, or reading or writing failed; without a message where the reader of
standard output has gone."
}
