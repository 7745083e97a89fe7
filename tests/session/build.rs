//! Links the archive of the function `test_replay`.

fn main() {
    tools::link("test_replay", None);
}
