//! Reads every shape of the .shp that it is given, with the .shx beside it, as the crate's users do: by its iterator, and each by its
//! number. Exit status 0 where the crate reads all without an error, 1 where it says something.
use shapefile::ShapeReader;

fn all(path: &str) -> Result<(), shapefile::Error> {
    ShapeReader::from_path(path)?.read()?;
    let mut reader = ShapeReader::from_path(path)?;
    for index in 0..reader.shape_count()? {
        if let Some(shape) = reader.read_nth_shape(index) {
            shape?;
        }
    }
    Ok(())
}

fn main() {
    let path = std::env::args().nth(1).expect("the path of a .shp");
    if let Err(error) = all(&path) {
        eprintln!("{error}");
        std::process::exit(1);
    }
}
