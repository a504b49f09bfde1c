// Prints a C file that asserts that the structs of akubolinfe.h lie in memory as those of akubolinfe.rs do: size, alignment and the offset of each
// field. To see the private ones it has to be in the same module: host/check builds it with akubolinfe.rs in front.
macro_rules! laid_out {
    ($c:literal, $rust:ty: $($field:ident)*) => {
        println!("_Static_assert(sizeof({0}) == {1}, \"size of {0}\");", $c, std::mem::size_of::<$rust>());
        println!("_Static_assert(_Alignof({0}) == {1}, \"alignment of {0}\");", $c, std::mem::align_of::<$rust>());
        $(println!("_Static_assert(offsetof({0}, {1}) == {2}, \"{0}.{1}\");", $c, stringify!($field), std::mem::offset_of!($rust, $field));)*
    };
}

fn main() {
    println!("#include \"akubolinfe.h\"");
    laid_out!("akubolinfe_ledger", Ledger: counts counters loaded last);
    laid_out!("akubolinfe_slot", Slot: counts loaded last);
    laid_out!("akubolinfe_cabinet", Cabinet: slots counters);
    laid_out!("akubolinfe_reply", RawReply: refusal group);
    laid_out!("akubolinfe_outcome", RawOutcome: refusal group ledger);
    laid_out!("akubolinfe_cabinet_outcome", RawCabinetOutcome: refusal group cabinet);
    laid_out!("akubolinfe_certificate", Certificate: hash mechanism);
    laid_out!("akubolinfe_form", Form: uses working recovery);
    laid_out!("akubolinfe_preparation", RawPreparation: refusal form);
    laid_out!("akubolinfe_run_reply", RawRunReply: refusal count);
    laid_out!("akubolinfe_run_outcome", RawRunOutcome: refusal count ledger);
    laid_out!("akubolinfe_cabinet_run_outcome", RawCabinetRunOutcome: refusal count cabinet);
    laid_out!("akubolinfe_verdict", RawVerdict: refusal step approach protection recoverable);
    laid_out!("akubolinfe_verdict_place", VerdictPlace: refusal step input part record what number group action permission);
    laid_out!("akubolinfe_subject_reply", RawSubjectReply: refusal length);
    laid_out!("akubolinfe_text_reply", RawTextReply: refusal line length);
    laid_out!("akubolinfe_trim_reply", RawTrimReply: refusal step acl_length hints_length);
    laid_out!("akubolinfe_file_place", FilePlace: refusal part record);
    laid_out!("akubolinfe_call_place", CallPlace: refusal input part record group reason item);
}
