//! What is sent to a file, values, and errors, on the system's entry of tmux-256color.

use std::fs::{self, File};
use std::os::unix::io::AsFd;
use ti::{Change, Entry, Error, Keys, Parameter, Terminal, Value};

const NAME: Option<&str> = Some("tmux-256color");

#[test]
fn strings_are_sent() -> Result<(), Error> {
    let path = std::env::temp_dir().join(format!("ti-binding-{}", std::process::id()));
    let file = File::create(&path).expect("a file can be made");
    let mut terminal = Terminal::open(NAME, file.as_fd())?;
    assert!(terminal.put("cup", &[4.into(), 9.into()])?);
    assert!(terminal.put("Smulx", &[3.into()])?);
    assert!(terminal.put("Ms", &["c".into(), "aGk=".into()])?);
    assert!(!terminal.put("nosuch", &[])?);
    assert_eq!(terminal.put("Ms", &[1.into(), 2.into()]), Err(Error::BAD_PARAMETER));
    assert_eq!(terminal.put("sgr0\0", &[]), Err(Error::BAD_NAME));
    terminal.put_text(b"text")?;
    assert_eq!(terminal.values().number("colors"), Some(256));
    assert!(terminal.size().1 > 0);
    assert!(terminal.path().to_bytes().ends_with(b"/tmux-256color"));
    let up = Keys { longest: Some((&b"kcuu1"[..], 3)), is_unfinished: false };
    assert_eq!(terminal.key(b"\x1bOAx"), up);
    assert_eq!(terminal.key(b"\x1b["), Keys { longest: None, is_unfinished: true });
    assert_eq!(terminal.key(b"x"), Keys { longest: None, is_unfinished: false });
    terminal.change(&CHANGES)?;
    assert!(terminal.put("Smulx", &[3.into()])? && !terminal.put("smcup", &[])?);
    drop(terminal);
    let written = fs::read(&path).expect("the file can be read");
    fs::remove_file(&path).expect("the file can be removed");
    assert_eq!(written, b"\x1b[5;10H\x1b[4:3m\x1b]52;c;aGk=\x07text<3>");
    Ok(())
}

#[test]
fn entries_are_read() -> Result<(), Error> {
    let entry = Entry::find(NAME)?;
    let path = entry.path().expect("it was found in a file").to_str().expect("its path is text");
    let copy = Entry::of_bytes(&fs::read(path).expect("the file can be read"))?;
    for entry in [&entry, &copy] {
        let values = entry.values();
        assert!(values.flag("am") && values.flag("auto_right_margin") && !values.flag("nosuch"));
        assert_eq!((values.number("cols"), values.number("nosuch")), (Some(80), None));
        assert_eq!((values.string("bel"), values.string("am")), (Some(&b"\x07"[..]), None));
        assert!(values.names().starts_with(b"tmux-256color|") && !values.long_name().is_empty());
    }
    Ok(())
}

const CHANGES: [Change<'_>; 4] = [
    Change { name: "Smulx", value: Some(Value::Text(b"<%p1%d>")) },
    Change { name: "colors", value: Some(Value::Number(1 << 24)) },
    Change { name: "RGB", value: Some(Value::Flag) },
    Change { name: "smcup", value: None },
];

#[test]
fn entries_are_changed() -> Result<(), Error> {
    let changed = Entry::find(NAME)?.changed(&CHANGES)?;
    let copy = Entry::of_bytes(changed.bytes())?;
    for entry in [&changed, &copy] {
        let values = entry.values();
        assert!(values.flag("RGB") && values.flag("am") && entry.path().is_none());
        assert_eq!((values.number("colors"), values.number("cols")), (Some(1 << 24), Some(80)));
        assert_eq!((values.string("Smulx"), values.string("smcup")), (Some(&b"<%p1%d>"[..]), None));
    }
    let refusal = |name, value| changed.changed(&[Change { name, value }]).err();
    assert_eq!(refusal("a b", None), Some(Error::BAD_CAPABILITY));
    assert_eq!(refusal("cup", Some(Value::Flag)), Some(Error::BAD_VALUE));
    assert_eq!(refusal("XX", Some(Value::Text(&[b'x'; 40000]))), Some(Error::TOO_LARGE));
    Ok(())
}

#[test]
fn errors_have_a_status() {
    let status = |name| Entry::find(Some(name)).err().map(|error| error.status());
    assert_eq!((status("no-such"), status(""), status("a/b"), status("a\0b")), (Some(10), Some(22), Some(23), Some(17)));
    assert_eq!(Entry::find(Some("no-such")).err(), Some(Error::NO_TERMINAL));
    let refused = Entry::of_bytes(b"no").err().expect("two bytes are not an entry");
    assert_eq!(refused.status(), 1);
    assert_eq!(refused.to_string(), "The entry has fewer bytes than a header");
    assert_eq!(Parameter::from("a"), Parameter::Text(b"a"));
}
