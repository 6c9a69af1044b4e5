// makes each call with a limit of 1000 bytes, and prints what is returned
fn tell(answer: Result<sas::Answer, sas::Error>) { println!("{}", answer.unwrap_err()); }
fn main() {
    let it = sas::max_answer_bytes(1000);
    tell(it.plan_why(b"", b"")); tell(it.trace(b"", b"")); tell(it.check_why(b"")); tell(it.mutex(b""));
    tell(it.mutex_why(b"")); tell(it.show(b"")); tell(it.print(b"")); tell(it.steps(b""));
}
