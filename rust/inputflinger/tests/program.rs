//! Runs of the program.

use inputflinger::{run, RunError};

const STREAM: &[u8] =
    b"channel 1 main\n1 1000 motion 1 DOWN 0@540,1200\n2 2000 motion 1 UP 0@540,1200\nend 1 sent 2 received 2 finished 2\n";

#[test]
fn a_stream_is_judged() -> Result<(), RunError> {
    let ran = run(&["verify", "--stream", "1"], &[STREAM])?;
    assert_eq!(
        (ran.status, &ran.out[..], &ran.err[..]),
        (0, &b"well formed 1 2\n"[..], &b""[..])
    );
    let ran = run(&["verify", "--stream", "2"], &[STREAM])?;
    assert_eq!(
        (ran.status, &ran.out[..], &ran.err[..]),
        (4, &b""[..], &b"stream: ReadFailed\n"[..])
    );
    assert_eq!(run(&[], &[])?.status, 2);
    Ok(())
}

#[test]
fn a_long_text_has_room() -> Result<(), RunError> {
    let session = include_bytes!("../../../examples/tap/session.toml");
    let mut recording = String::new();
    for packet in 0..4000 {
        let (second, micro) = (1 + packet / 100, packet % 100 * 10_000);
        for event in [
            format!("0003 0039 {:08x}", packet / 2 * 2),
            format!("0003 0035 {:08x}", packet % 1000),
            "0000 0000 00000000".to_string(),
        ] {
            recording += &format!("[ {second:6}.{micro:06}] /dev/input/event2: {event}\n");
        }
    }
    let words = ["replay", "--session", "1", "--events", "2"];
    let ran = run(&words, &[session, recording.as_bytes()])?;
    assert_eq!((ran.status, ran.err.as_slice()), (0, b"".as_slice()));
    assert!(ran.out.len() > 1 << 16);
    let judged = run(&["verify", "--stream", "1"], &[&ran.out])?;
    assert_eq!((judged.status, judged.err.as_slice()), (0, b"".as_slice()));
    Ok(())
}

#[test]
fn runs_that_do_not_begin() {
    let race = ["race", "--session", "1", "--events", "2"];
    assert_eq!(run(&race, &[STREAM, STREAM]), Err(RunError::NoThreads));
    assert_eq!(run(&["verify\n"], &[]), Err(RunError::Newline));
    assert_eq!(run(&["verify"], &[STREAM; 4]), Err(RunError::TooManyFiles));
}
