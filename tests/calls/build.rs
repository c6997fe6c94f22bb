//! Links the static library that the environment names.

/// Calls that came with a request, and what is set where the library has them. One without them can still be timed.
const LATER_CALLS: [(&str, &str); 3] =
    [("lift_with_call", "has_lift_with"), ("older_play_call", "has_older"), ("index_of_call", "has_questions")];

fn main() {
    println!("cargo:rerun-if-env-changed=STATIC_LIBRARY");
    let Ok(library) = std::env::var("STATIC_LIBRARY") else {
        panic!("STATIC_LIBRARY must name the static library of the calls");
    };
    println!("cargo:rerun-if-changed={library}");
    println!("cargo:rustc-link-arg-bins={library}");
    let bytes = std::fs::read(&library).unwrap_or_default();
    for (call, setting) in LATER_CALLS {
        println!("cargo:rustc-check-cfg=cfg({setting})");
        if bytes.windows(call.len()).any(|name| name == call.as_bytes()) {
            println!("cargo:rustc-cfg={setting}");
        }
    }
}
