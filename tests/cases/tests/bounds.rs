//! The cases of bounds, by the second emulator and by the engine.

use cases::bounds::cases;
use cases::line_of;

#[test]
fn bounds_are_those_of_the_description() {
    for case in cases() {
        let (graph, inputs) = (case.lent.graph.bytes(), case.lent.inputs.bytes());
        let bounds = second::bounds(&graph, &inputs);
        let line = match &bounds {
            Ok(bounds) => format!("{} {}", bounds.firings, bounds.tokens),
            Err(refusal) => format!("refused {} {}", refusal.number, refusal.place),
        };
        assert_eq!(line, case.says, "{}", case.name);
        let found = engine::bounds(&graph, &inputs);
        assert_eq!(found, engine::packed_bounds(&bounds), "{}", case.name);
        let answer = cases::run(&case.lent).answer;
        assert_eq!(line_of(&answer), case.run, "{}", case.name);
    }
}
