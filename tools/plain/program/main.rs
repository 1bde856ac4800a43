
// What stands above was proved; what stands below was not.

/// Returns the arguments, without the program's name. A word that is no text asks for nothing.
fn arguments() -> Vec<String> {
    let words = std::env::args_os().skip(1);
    words.map(|it| it.into_string().unwrap_or("?".into())).collect()
}

/// Writes how the program is called. No status tells whether that was read, so a failed write is passed over.
fn tell_usage() {
    use std::io::Write;
    let _ = writeln!(std::io::stderr(), "usage: forest_run [map|set [limit]|books count]");
}

fn main() -> std::process::ExitCode {
    // Both streams come before anything is asked: Rust's library has no answer where memory for its buffers is refused.
    let (mut input, mut output) = streams::standard();
    let Some((kind, limit)) = asked(&arguments()) else {
        tell_usage();
        return 2.into();
    };
    run_text(kind, limit, &mut input, &mut output).into()
}
