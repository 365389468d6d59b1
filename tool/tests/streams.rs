//! Standard input, and options as they are typed.

mod common;

use common::*;

fn bench(name: &str) -> Bench {
    let bench = Bench::new(name);
    bench.put("in", &image(&WORKED_HEAD, &worked_memory()));
    bench
}

#[test]
fn every_command_reads_standard_input() {
    let bench = bench("stdin");
    let whole = bench.get("in");
    let shown = bench.fed("show -", &worked_after()).done();
    assert_eq!(shown, format!("image    standard input\n{WORKED_SHOWN}"));
    let checked = bench.fed("check - in", &WORKED_HEAD).done();
    assert_eq!(checked, "standard input: a valid head\nin: a valid image\n");
    assert_eq!(bench.fed("compare - in", &whole).done(), "the same\n");
    bench.fed("run - 30 ran", &whole).done();
    assert_eq!(bench.get("ran"), worked_after());
    bench.fed("judge in 30 -", &worked_after()).done();
    let line = format!("make made --dump - {WORKED_START}");
    bench.fed(&line, &worked_memory()).done();
    assert_eq!(bench.get("made"), whole);
    bench.fed("import in - put --at C000", &[0x77]).done();
    assert_eq!(bench.get("put")[23 + 0xC000], 0x77);
    bench.fed("export - out --bytes 0150..0159", &whole).done();
    assert_eq!(bench.get("out"), ADDING);
    let listed = bench.fed("list - --lines 1", &whole).done();
    assert_eq!(listed, "0150 A7 AND A,A\n");
}

#[test]
fn a_stream_of_a_wrong_length() {
    let bench = bench("stdin-length");
    let longer = [&bench.get("in")[..], &[0; 5]].concat();
    bench
        .fed("show -", &longer)
        .failed("standard input: refusal 6: ");
    bench
        .fed("show -", &longer)
        .failed("found more than 65,559 bytes, wanted 23 for a head or 65,559 for an image");
    bench
        .fed("run - 30 out", &[])
        .wrote_nothing("found 0 bytes, wanted 65,559 for an image");
    assert_eq!(bench.names(), ["in"]);
}

#[test]
fn standard_input_is_read_once() {
    let bench = bench("once");
    bench.fed("compare - -", &[]).failed("only once");
    bench.fed("check - in -", &[]).failed("only once");
    bench.fed("import - - out", &[]).failed("only once");
}

/// Nobody types an image: a terminal is not waited for.
#[test]
fn a_terminal_is_not_waited_for() {
    let bench = bench("terminal");
    let line = "timeout 20 script -qec '\"$TOOL\" show -' /dev/null < /dev/null";
    let answer = bench.shell(line);
    assert_eq!(answer.exit, Some(2), "{answer:?}");
    assert!(
        answer.out.contains("standard input: a terminal"),
        "{answer:?}"
    );
}

/// The save that a run started from can come by standard input too.
#[test]
fn a_start_by_standard_input_stays_as_well() {
    let bench = Bench::new("start-stdin");
    let stop = image(&WORKED_HEAD, &memory(&[(0x0150, &[0x3C, 0x10, 0x00])]));
    bench.put("in", &stop);
    let ran = bench.shell("exec \"$TOOL\" run - 30 in --replace < in");
    assert_eq!(ran.exit, Some(1));
    assert!(ran.out.contains("wrote in.ended"), "{ran:?}");
    assert_eq!(bench.get("in"), stop);
}

#[test]
fn values_behind_an_equals_sign() {
    let bench = bench("equals");
    bench.put("dump", &worked_memory());
    let start = WORKED_START.replace(' ', "=").replace("=--", " --");
    bench.tool(&format!("make made --dump=dump {start}")).done();
    assert_eq!(bench.get("made"), bench.get("in"));
    bench.tool("make odd --dump=a=b").wrote_nothing("a=b: ");
    let shown = bench.tool("show in --score=C000 2").done();
    assert_eq!(shown, "score $C000-$C001, 2 bytes: 199\n");
    bench
        .tool("run in 30 out --replace=yes")
        .failed("takes no value");
    bench
        .tool("show in --score=C000")
        .failed("wants an address and a length");
    bench
        .tool("show in --fast=1")
        .failed("there is no option --fast");
}

#[test]
fn the_version() {
    let bench = bench("version");
    let own = env!("CARGO_PKG_VERSION");
    assert_eq!(
        bench.tool("--version").done(),
        format!("trnadulek-tool {own}, proved library {own}\n")
    );
}
