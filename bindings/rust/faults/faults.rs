//! Memory that runs out at each allocation of the library in turn, and calls that are trapped.
use voting_board::*;

extern "C" {
    fn faults_after(number: std::os::raw::c_long) -> std::os::raw::c_long;
    fn faults_kept() -> std::os::raw::c_long;
    fn faults_trap(on: std::os::raw::c_int);
}

/// Makes a call again and again, where each time a later allocation of the library fails, until none does. Each
/// call that fails is refused as out of memory. Returns the number of failures.
fn each_allocation<T>(mut call: impl FnMut() -> Result<T, Refused>) -> usize {
    for number in 0.. {
        // SAFETY: they change a number and a flag of this thread.
        unsafe { faults_after(number) };
        let result = call();
        let failed = unsafe { faults_after(-1) } < 0;
        match result {
            Err(why) => assert_eq!((why.refusal(), why.number(), failed), (Refusal::OutOfMemory, 10, true)),
            Ok(_) if failed => panic!("allocation {number} failed, and the call didn't"),
            Ok(_) => return number as usize,
        }
    }
    unreachable!("a call allocates a number of times")
}

fn three() -> Register {
    Register::from_script("member,votes\nAAA,50\nBBB,49\nCCC,1\nscript\nopen,1\nmove,AAA,1\npublish\nopen,2\n").unwrap()
}

#[test]
fn registers_are_freed() {
    // SAFETY: it reads a number of this thread.
    let kept = || unsafe { faults_kept() };
    let before = kept();
    let registers = [three(), three().try_clone().unwrap()];
    assert!(kept() > before);
    drop(registers);
    assert_eq!(kept(), before);
}

#[test]
fn memory_runs_out_while_a_register_is_made() {
    let register = three();
    let script = register.script();
    assert!(each_allocation(|| Register::new([("AAA", 50), ("BBB", 49)])) > 0);
    assert!(each_allocation(|| Register::from_script(&script)) > 2);
    assert!(each_allocation(|| register.try_clone()) > 0);
}

#[test]
fn memory_runs_out_while_commands_are_carried_out() {
    let records: String = (0..100).map(|it| format!("votes,BBB,{it}\npublish\n")).collect();
    let mut register = three();
    let before = (register.script(), format!("{register:?}"));
    let failures = each_allocation(|| {
        let result = register.submit(&records);
        if result.is_err() {
            assert_eq!((register.script(), format!("{register:?}")), before);
        }
        result
    });
    assert!(failures > 2);
    assert_eq!((register.accepted(), register.published()), (103, 103));
    let mut register = three();
    assert_eq!(each_allocation(|| register.undo_to(1)), 0);
    assert_eq!(register.accepted(), 1);
}

// Catches: a list that is half carried out when memory runs out while it is taken back.
#[test]
fn memory_runs_out_where_a_record_is_refused() {
    let mut register = three();
    let before = (register.script(), format!("{register:?}"));
    for records in ["open,3\nopen,3\n", "open,3\npublish\nopen,4\nopen,4\n", "votes,AAA,1\nbad\n"] {
        for number in 0..20 {
            // SAFETY: it changes a number of this thread.
            unsafe { faults_after(number) };
            let why = register.submit(records).unwrap_err();
            let failed = unsafe { faults_after(-1) } < 0;
            assert_eq!(why.refusal() == Refusal::OutOfMemory, failed);
            assert_eq!((register.script(), format!("{register:?}")), before);
        }
    }
}

#[test]
fn memory_runs_out_in_a_replay() {
    let text = three().script() + "open,1\nread,1,half\nclose\n";
    let whole: Vec<Outcome> = replay(&text).unwrap().map(Result::unwrap).collect();
    let failures = each_allocation(|| {
        let outcomes: Vec<Result<Outcome, Refused>> = replay(&text)?.collect();
        let (sound, failed): (Vec<_>, Vec<_>) = outcomes.into_iter().partition(Result::is_ok);
        assert!(whole.iter().zip(&sound).all(|(one, other)| other.as_ref() == Ok(one)));
        failed.into_iter().next().unwrap_or(Ok(whole[0].clone()))
    });
    assert!(failures > 2);
    assert!(each_allocation(|| replay(&text)?.register()) > 2);
    assert!(each_allocation(|| replay_text(&text)) > 2);
}

#[test]
fn a_trapped_register_is_used_no_more() {
    let mut register = three();
    // SAFETY: it changes a flag of this thread.
    unsafe { faults_trap(1) };
    let why = register.open(3).unwrap_err();
    unsafe { faults_trap(0) };
    let sentence = "the library came to a point that its proof rules out: the compiler or the machine is at fault";
    assert_eq!((why.number(), why.to_string()), (255, format!("Trapped (255), {sentence}")));
    let after = [
        register.open(3).map(|_| ()),
        register.submit("open,3\n").map(|_| ()),
        register.publish().map(|_| ()),
        register.check(&Command::Open { chair: 3 }),
        register.indices(Majority::Half).map(|_| ()),
        register.try_clone().map(|_| ()),
        register.undo_to(0).map(drop),
    ];
    assert!(after.iter().all(|it| it.as_ref().unwrap_err().refusal() == Refusal::Trapped));
    assert_eq!((register.accepted(), register.members().len(), register.chairs().len()), (0, 0, 0));
    assert_eq!(three().open(3), Ok(4));
}
