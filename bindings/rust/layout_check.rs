// Run by build.rs: the library marks a record, and every field has to lie where this crate has it.
#[path = "src/layout.rs"]
mod layout;
#[path = "src/sys.rs"]
mod sys;

fn main() {
    let faults = layout::faults();
    for field in &faults {
        eprintln!("the library has this elsewhere: {field}");
    }
    std::process::exit(!faults.is_empty() as i32);
}
