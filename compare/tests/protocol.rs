//! Small pages of document 01 and the edges of the line protocol.

fn answers(calls: &str) -> String {
    let mut answers = Vec::new();
    compare::protocol::serve(calls.as_bytes(), &mut answers).expect("reading from memory");
    String::from_utf8(answers).expect("answers are ASCII")
}

#[test]
fn smallest_page_ends_in_one_step() {
    let calls = "create\nload 010a0201410a050b01314500\nstep\nstep\n";
    let expected = "create 0\nload 0 -\nstep 0 ended 0 45 - -\nstep 33 refused - - - -\n";
    assert_eq!(answers(calls), expected);
}

#[test]
fn lengths_that_are_wrong_are_refused() {
    assert_eq!(answers("load 010b0201410a050b01314500\n"), "load 2 0\n");
    assert_eq!(answers("load 010a0201410a050b0131450000\n"), "load 2 12\n");
    assert_eq!(answers("load -\n"), "load 1 0\n");
}

#[test]
fn a_set_variable_without_a_value_is_refused_at_its_own_tag() {
    assert_eq!(answers("load 010e0201410a090b01314004800b0131\n"), "load 4 10\n");
    assert_eq!(answers("load 01110201410a0c0b01314007800b0131810e00\n"), "load 4 13\n");
}

#[test]
fn lines_that_are_no_call_change_nothing() {
    let lines = [
        "halt",
        "load",
        "load 0",
        "load 0g",
        "run",
        "run +1",
        "run -1",
        "run 4294967296",
        "env 02",
        "env 5 00",
        "read 4",
        "respond",
        "step 1",
        " step",
        "step ",
    ];
    for line in lines {
        assert_eq!(answers(line), "?\n", "{line}");
    }
    assert_eq!(answers("\n# a remark\n\n"), "");
    assert_eq!(answers("RUN 1\nrun 0\n"), "?\nrun 33 refused 0 - -\n");
}

#[test]
fn a_line_has_a_longest_length() {
    let load = |bytes: usize| format!("load {}\nend\n", "0".repeat(bytes));
    assert_eq!(answers(&load(65_530)), "load 1 0\nend 33\n");
    assert_eq!(answers(&load(65_531)), "?\nend 33\n");
    assert_eq!(answers(&load(65_532)), "?\nend 33\n");
    assert_eq!(answers(&load(200_000)), "?\nend 33\n");
}

#[test]
fn a_script_is_the_same_each_time() {
    let script = |seed, number| {
        let mut script = Vec::new();
        compare::generator::write_script(seed, number, &mut script).expect("writing to memory");
        script
    };
    assert_eq!(script(1, 2), script(1, 2));
    assert_ne!(script(1, 2), script(1, 3));
    assert_ne!(script(1, 2), script(2, 2));
    assert!(script(1, 2).starts_with(b"create\n"));
}
