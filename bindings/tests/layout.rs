//! Sizes, alignments and offsets, against the table that the C program is compared with too.
use bredumalt::sys::{DeadlinesAnswer, EndsAnswer, SmallAnswer, SpanAnswer, WaitersAnswer};
use bredumalt::*;
use std::mem::{align_of, offset_of, size_of};

macro_rules! lines {
    ($text:ident, $($name:ident { $($field:tt)* })*) => {
        $(
            $text += &format!("{} {} {}\n", stringify!($name), size_of::<$name>(), align_of::<$name>());
            $( $text += &format!("{}.{} {}\n", stringify!($name), stringify!($field), offset_of!($name, $field)); )*
        )*
    };
}

#[test]
fn layouts_are_those_of_c() {
    let mut text = String::new();
    lines!(text,
        TaskId { slot epoch }
        Cookie { 0 }
        Token { 0 }
        Answer { refusal kind flag number first second third }
        Span { n head len }
        RunQueue { span slots epochs }
        Ends { c head tail drops }
        WakeQueue { ends tokens }
        Waiter { live cookie task }
        Waiters { all }
        WaitTable { waiters pending pending_slots pending_epochs }
        Entry { live task deadline }
        Table { entries }
        Small { n heads lens currents idles parked parked_id overwrites block_events peak }
        Tasks { small states epochs homes marks ring_slots ring_epochs }
        SpanAnswer { span answer }
        EndsAnswer { ends answer }
        WaitersAnswer { waiters answer }
        DeadlinesAnswer { table answer }
        SmallAnswer { small answer }
    );
    assert_eq!(text, include_str!("layout.txt"));
}
