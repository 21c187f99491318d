//! Document 01's case 13 through the exported functions, in its own format, 8 exponent bits and
//! 23 fraction bits, and in double precision.

use second::choice::Job;
use second::fits::Conditions;
use second::format::{LARGEST_MODE, NO_CASE};
use second::mask::Mask;
use second::record::encode;
use second::signs::refusal;
use vindacsor::buffer;

/// Addition with a's and b's sign bits fixed to 0 and c's to 1, nothing else fixed.
fn job(w: u64, f: u64, mode: u64) -> Job {
    let sign = 1 << (w + f);
    let fixed = |value| Mask { care: sign, value };
    let mut conditions = Conditions::free(w, f, 0, mode);
    conditions.a = fixed(0);
    conditions.b = fixed(0);
    conditions.c = fixed(sign);
    Job {
        conditions,
        words: [0, 0],
    }
}

/// The job in both formats and every mode.
fn jobs() -> impl Iterator<Item = Job> {
    let formats = [(8, 23), (11, 52)].into_iter();
    formats.flat_map(|(w, f)| (0..=LARGEST_MODE).map(move |mode| job(w, f, mode)))
}

#[test]
fn no_case_in_any_mode() {
    for job in jobs() {
        assert_eq!(refusal(&job), Some(NO_CASE));
        let record = encode(&job).expect("a well-made job");
        let mut out = [0xA5; 40];
        assert_eq!(buffer::generate(&record, &mut out), u64::from(NO_CASE));
        assert_eq!(out, [0xA5; 40]);
    }
}

/// With any one of the three signs left free there is a case, and confirmation says yes to it.
#[test]
fn a_case_where_one_sign_is_free() {
    for job in jobs() {
        for free in 0..3 {
            let mut job = job;
            let masks = &mut job.conditions;
            *[&mut masks.a, &mut masks.b, &mut masks.c][free] = Mask::FREE;
            assert_eq!(refusal(&job), None);
            let record = encode(&job).expect("a well-made job");
            let case = vindacsor::generate(&record).expect("a case");
            let confirmed = vindacsor::confirm(&record, case.a, case.b, case.c);
            assert_eq!(confirmed, Ok(true));
            assert_eq!(
                second::fits::confirm(&job.conditions, case.a, case.b, case.c),
                Ok(true)
            );
        }
    }
}
