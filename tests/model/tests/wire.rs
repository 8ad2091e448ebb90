//! The driver's protocol: what is written is read back, and its bytes are those of the driver.

use model::compare::call::Call;
use model::compare::lending::Lending;
use model::compare::wire::*;
use model::generate::image;
use model::random::Random;

/// Lendings of every shape that the comparison makes.
fn lendings(random: &mut Random) -> Vec<(Call, Lending)> {
    let image = image(random);
    let work = random.garbage_list(image.work_needed());
    let bytes: Vec<u8> = work.iter().map(|word| *word as u8).collect();
    let number = u64::MAX - u64::from(random.word());
    let whole = Lending::of_image(&image).with_work(&work);
    let asked = whole.clone().with_room(&work).with_number(number);
    let heap_and_stack = Lending::of_heap_and_stack(&image).with_number(number);
    let file = Lending::nothing().with_bytes(&bytes).with_number(number);
    vec![
        (Call::Collect, whole.clone()),
        (Call::StepBack, whole),
        (Call::LookUp, heap_and_stack),
        (Call::Thaw, Lending::of_image(&image).with_bytes(&bytes)),
        (Call::Freeze, Lending::of_image(&image).with_bytes(&[])),
        (Call::Record, file),
        (Call::WhyHeld, asked),
    ]
}

#[test]
fn requests_and_answers_are_read_back() {
    let mut random = Random::new(5);
    for _ in 0..200 {
        for (call, before) in lendings(&mut random) {
            let mut request = Vec::new();
            write_request(&mut request, call as u32, &before);
            assert!(read_request(&request) == (call, before.clone()));
            let mut after = before.clone();
            after.parts().0.control.fill(random.word());
            let row = std::array::from_fn(|_| u64::from(random.word()) << 32 | 7);
            let mut answer = Vec::new();
            write_answer(&mut answer, &row, &after);
            assert!(read_answer(&answer, &before) == (row, after));
        }
    }
}

#[test]
fn a_write_outside_the_lent_part_is_read_back_as_such() {
    let before = Lending::nothing().with_bytes(&[1, 2]);
    let mut answer = Vec::new();
    write_answer(&mut answer, &[0; 7], &before);
    assert!(read_answer(&answer, &before).1.bytes.intact());
    *answer.last_mut().expect("a guard") ^= 1;
    assert!(!read_answer(&answer, &before).1.bytes.intact());
}

#[test]
fn the_bytes_of_a_request() {
    let lending = Lending::nothing().with_bytes(&[9]).with_number(258);
    let mut request = Vec::new();
    write_request(&mut request, Call::Record as u32, &lending);
    let mut expected = vec![6, 0, 0, 0, 2, 1, 0, 0, 0, 0, 0, 0];
    expected.extend([0; 6 * 12]);
    expected.extend([17, 0, 0, 0, 8, 0, 0, 0, 1, 0, 0, 0]);
    expected.extend([0xA5; 8]);
    expected.push(9);
    expected.extend([0xA5; 8]);
    assert_eq!(request, expected);
}
