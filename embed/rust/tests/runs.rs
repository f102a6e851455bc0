//! What the crate gives and refuses, of the examples below GEYSERPAN_EXAMPLES.
use geyserpan::{assemble, check, sha256, Error, Image, Services, State, Terms, Test};
use std::io::{self, Read};
use std::{env, fs};

mod common;
use common::{file, most};

/// An image that hands on its input.
fn echo() -> Option<Image> {
    Some(Image::open(&file("echo/echo.img")?, &Terms::new()).unwrap())
}

#[test]
fn is_shared_by_threads() {
    fn shared<T: Send + Sync + Clone>() {}
    fn moved<T: Send>() {}
    shared::<Image>();
    moved::<geyserpan::Session>();
    moved::<geyserpan::Reader<io::Empty>>();
}

/// A number behind a word of a text.
fn number(text: &str, word: &str, base: u32) -> u64 {
    let digits: String = text.split_once(word).unwrap().1.chars().take_while(char::is_ascii_alphanumeric).collect();
    u64::from_str_radix(&digits, base).unwrap()
}

#[test]
fn runs_the_examples() {
    let Ok(folder) = env::var("GEYSERPAN_EXAMPLES") else { return };
    let mut tried = 0;
    for entry in fs::read_dir(folder).unwrap() {
        let name = entry.unwrap().file_name().into_string().unwrap();
        let (Some(bytes), Some(ran)) = (file(&format!("{name}/{name}.img")), file(&format!("{name}/{name}.ran")))
        else {
            continue;
        };
        let (input, ran) = (file(&format!("{name}/{name}.in")).unwrap_or_default(), String::from_utf8(ran).unwrap());
        let (image, mut output) = (Image::open(&bytes, &most()).unwrap(), Vec::new());
        let report = image.run_into(&input, &mut output).unwrap();
        assert_eq!(output, file(&format!("{name}/{name}.out")).unwrap(), "{name}");
        let word = number(&ran, "end: exit with the word ", 16);
        assert_eq!((u64::from(report.exit), report.turns), (word, number(&ran, "\nturns: ", 10)), "{name}");
        assert!(report.turns <= image.facts().budget && report.test().is_none());
        assert_eq!(image.matches(&input).unwrap(), word == 0);
        tried += 1;
    }
    assert!(tried >= 10);
}

/// Whether its runs go by an object: a step of one turn is more than that.
fn is_native(image: &Image) -> bool {
    image.session().unwrap().step(1, b"abc", true, &mut [0; 8]).turns > 1
}

#[test]
fn goes_by_an_object() {
    let (Some(image), Ok(object)) = (echo(), env::var("GEYSERPAN_OBJECT")) else { return };
    let (clone, plain, mut before) = (image.clone(), echo().unwrap(), image.session().unwrap());
    assert!(!is_native(&image));
    // SAFETY: `native build` made it.
    unsafe { image.native(object) }.unwrap();
    assert!(is_native(&image) && is_native(&clone) && !is_native(&plain));
    assert!(before.step(1, b"abc", true, &mut [0; 8]).turns <= 1);
    drop(before);
    let (mut wanted, mut came) = (Vec::new(), Vec::new());
    assert_eq!(image.run_into(b"abc", &mut came).unwrap(), plain.run_into(b"abc", &mut wanted).unwrap());
    assert_eq!(wanted, came);
    for (path, error) in [("/nowhere", Error::NoFile), ("a\0b", Error::NoFile), ("/", Error::NoObject)] {
        // SAFETY: nothing is loaded.
        assert_eq!(unsafe { image.native(path) }, Err(error));
        assert!(!error.to_string().is_empty() && is_native(&image));
    }
    let other = assemble(b".services exit\n.function main,leaf,0,0,4\n.fuel 4\n mov 0,%o0\n ta 0\n").unwrap();
    // SAFETY: `native build` made it.
    let refused = unsafe { Image::open(&other, &most()).unwrap().native(env::var("GEYSERPAN_OBJECT").unwrap()) };
    assert_eq!(refused, Err(Error::ObjectImage));
}

#[test]
fn refuses_an_image() {
    assert!(matches!(Image::open(b"", &most()), Err(Error::NoImage { number: 1, .. })));
    let (Some(bytes), Some(told)) = (file("refused/V1.img"), file("refused/V1.told")) else { return };
    let error = Image::open(&bytes, &most()).unwrap_err();
    assert_eq!(Some(error.to_string().as_str()), String::from_utf8(told).unwrap().lines().next());
    assert!(matches!(error, Error::Refused { rule: 1, .. }));
    assert_eq!(check(&bytes).unwrap_err(), error);
    let within = io::Error::from(error);
    assert_eq!(within.kind(), io::ErrorKind::InvalidData);
    assert_eq!(within.get_ref().unwrap().downcast_ref::<Error>(), Some(&error));
}

#[test]
fn refuses_a_source() {
    let error = assemble(b"\nfrobnicate %o0\n").unwrap_err();
    assert_eq!(error.to_string(), "line 2: S1");
    assert!(matches!(error, Error::Source { cause: 5, line: 2, .. }));
}

#[test]
fn denies_by_terms() {
    let Some(bytes) = file("echo/echo.img") else { return };
    let (image, few) = (Image::open(&bytes, &most()).unwrap(), Services::EXIT | Services::GET);
    for terms in [most().services(few), most().services(few).turns(1000)] {
        let error = Image::open(&bytes, &terms).unwrap_err();
        assert_eq!(error.to_string(), "asks for exit, get and put; granted: exit and get");
        assert_eq!(image.with(&terms).unwrap_err(), error);
        assert!(matches!(error, Error::Services { asked: Services::ALL, granted, .. } if granted == few));
    }
    let error = Image::open(&bytes, &Terms::new().turns(1000)).unwrap_err();
    assert_eq!(error.to_string(), "asks for 16,030 turns, 1,000 are granted");
    assert!(matches!(error, Error::Turns { asked: 16_030, granted: 1000, .. }));
    assert_eq!(image.with(&Terms::new().turns(1000)).unwrap_err(), error);
    let error = image.with(&most().windows(3)).unwrap_err();
    assert_eq!(error.to_string(), "no run on 3 windows: 4 to 32, in pieces on a board 8");
    assert_eq!(Image::open(&bytes, &most().windows(3)).unwrap_err(), error);
}

#[test]
fn stops_at_the_output_that_is_granted() {
    let Some(image) = echo() else { return };
    let image = image.with(&Terms::new().output(2)).unwrap();
    let mut output = b"front ".to_vec();
    let error = image.run_into(b"abc", &mut output).unwrap_err();
    assert_eq!(error.to_string(), "puts out more than the 2 bytes that are granted");
    assert_eq!(output, b"front ab");
    assert_eq!(image.run(b"abc").unwrap_err(), error);
    assert_eq!(image.run(b"ab").unwrap(), b"ab");
    let mut output = Vec::new();
    let told = image.filter(&b"abc"[..], &mut output).unwrap_err();
    assert_eq!((told.get_ref().unwrap().downcast_ref::<Error>(), &output[..]), (Some(&error), &b"ab"[..]));
}

#[test]
fn a_clone_is_the_same_image() {
    let Some(image) = echo() else { return };
    let four = image.with(&Terms::new().windows(4)).unwrap();
    assert_eq!((four.sha256(), four.facts()), (image.sha256(), image.facts()));
    assert_eq!(image.sha256(), sha256(&file("echo/echo.img").unwrap()));
    let other = image.clone();
    drop(image);
    assert_eq!(other.run(b"abc").unwrap(), b"abc");
    drop(other);
    assert_eq!(four.run(b"abc").unwrap(), b"abc");
}

#[test]
fn names_are_hashes() {
    // by FIPS 180-4's own examples
    let hex = |bytes: &[u8]| bytes.iter().map(|byte| format!("{byte:02x}")).collect::<String>();
    assert_eq!(hex(&sha256(b"abc")), "ba7816bf8f01cfea414140de5dae2223b00361a396177a9cb410ff61f20015ad");
    assert_eq!(hex(&sha256(b"")), "e3b0c44298fc1c149afbf4c8996fb92427ae41e4649b934ca495991b7852b855");
}

#[test]
fn tells_the_test_that_ended_a_run() {
    let source = b".services exit\n.function main,leaf,0,0,10\n.fuel 10\n sethi 64,%o0\n or %o0,7,%o0\n ta 0\n";
    let image = Image::open(&assemble(source).unwrap(), &most()).unwrap();
    let report = image.run_into(b"", &mut Vec::new()).unwrap();
    assert_eq!((report.exit, report.test()), (0x10007, Some((Test::Index, 7))));
    assert!(!image.matches(b"").unwrap());
}

#[test]
fn steps() {
    let Some(image) = echo() else { return };
    let (mut session, mut output, mut rounds) = (image.session().unwrap(), Vec::new(), 0);
    let mut piece = &b"abcdef"[..];
    loop {
        let mut room = [0; 2];
        let step = session.step(10, piece, true, &mut room);
        output.extend_from_slice(&room[..step.written]);
        (piece, rounds) = (&piece[step.read..], rounds + 1);
        match step.state {
            State::Ended(word) => break assert_eq!(word, 0),
            State::Full | State::Paused => {}
            other => panic!("{other:?}"),
        }
    }
    assert!(output == b"abcdef" && rounds > 5);
    let step = session.step(10, b"more", true, &mut [0; 2]);
    assert_eq!((step.state, step.read, step.written), (State::Ended(0), 0, 0));
}

/// A source that gives a byte at a time, and between two an interruption.
struct Slow<'a>(&'a [u8], bool);

impl Read for Slow<'_> {
    fn read(&mut self, room: &mut [u8]) -> io::Result<usize> {
        self.1 = !self.1;
        if self.1 {
            return Err(io::ErrorKind::Interrupted.into());
        }
        self.0.read(&mut room[..1])
    }
}

#[test]
fn filters_streams() {
    let Some(bytes) = file("lower/lower.img") else { return };
    let (image, text) = (Image::open(&bytes, &most()).unwrap(), "Ab".repeat(50_000));
    let (mut output, mut slow) = (Vec::new(), Vec::new());
    let report = image.filter(text.as_bytes(), &mut output).unwrap();
    assert_eq!(report, image.filter(Slow(text.as_bytes(), false), &mut slow).unwrap());
    assert_eq!(report, image.run_into(text.as_bytes(), &mut Vec::new()).unwrap());
    let lower = text.to_lowercase().into_bytes();
    assert!(output == lower && slow == lower && report.exit == 0);
    let mut reader = image.reader(&b"ABC"[..]).unwrap();
    assert_eq!(reader.read(&mut []).unwrap(), 0);
    assert_eq!(io::read_to_string(&mut reader).unwrap(), "abc");
    assert_eq!(reader.report().unwrap().exit, 0);
}

#[test]
fn threads_share_an_image() {
    let Some(image) = echo() else { return };
    std::thread::scope(|scope| {
        for n in 0..8 {
            let image = &image;
            scope.spawn(move || {
                let input = [b'A' + n; 50];
                for _ in 0..300 {
                    assert_eq!(image.run(&input).unwrap(), input);
                    let mut output = Vec::new();
                    image.with(&Terms::new()).unwrap().filter(&input[..], &mut output).unwrap();
                    assert_eq!(output, input);
                }
            });
        }
    });
}
