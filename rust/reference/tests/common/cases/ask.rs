//! The operator's call.

use super::*;

pub fn ids(scene: &Scene, list: &mut List) {
    let Scene { a, opening, .. } = scene;
    for (name, state) in [("open", &a.state), ("opening", &opening.state)] {
        for (recv_id, number) in [(2, 0), (4, 0), (1, 35), (6, 35), (99, 35)] {
            list.add(name, &a.table, state, ask(recv_id), (number, 0));
        }
    }
}
