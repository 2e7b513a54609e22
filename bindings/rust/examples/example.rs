use fascjoldi::{BitPacking, Blocks, Refused};

fn main() -> Result<(), Refused> {
    let values: [u64; 1024] = std::array::from_fn(|i| i as u64);
    let mut packed = [0; 160];

    // As with fastlanes 0.7.2: the width and the packed length are in the type.
    BitPacking::pack::<10, 160>(&values, &mut packed);
    println!("{}", BitPacking::unpack_single::<10, 160>(&packed, 1000));

    // Over slices, at a width that is given: what cannot be done is refused.
    let single = Blocks::unpack_single(10, &packed, 1000)?;
    println!("{} from {} packed word", single.value, single.words);
    println!("{:?}", Blocks::unpack_single(10, &packed, 1024));
    Ok(())
}
