//! `findings`: what the source does to a flat SRGB card, how far its irradiance is from document 02's, how many texels that
//! bears, and what each mode of packing does to a picture's mean. What the source does depends on the platform's `powf`.

#[cfg(source)]
mod card;
mod cubes;
mod irradiance;
mod packing;

fn main() {
    #[cfg(source)]
    {
        card::print();
        println!();
        irradiance::from_source();
    }
    #[cfg(not(source))]
    println!("source comparison skipped: set SWRASTER_SRC");
    println!();
    irradiance::white_cubes();
    println!();
    irradiance::rounded_sums();
    println!();
    irradiance::reduced_levels();
    println!();
    packing::print();
}
