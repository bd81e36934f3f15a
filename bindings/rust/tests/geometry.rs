//! Matrices, mirrors, walls, generators, reflections and families.

#![allow(clippy::float_cmp, reason = "`near` is for what is not exact")]

use std::f64::consts::PI;

use lexicon::{Cd, CdError, CdResult, Cox, Matrix};

fn dot(a: &[f64], b: &[f64]) -> f64 {
    a.iter().zip(b).map(|(a, b)| a * b).sum()
}

fn near(a: f64, b: f64) -> bool {
    (a - b).abs() < 1e-12
}

/// The bits of the doubles, column after column: `==` takes 0.0 and -0.0 for equal.
fn bits(matrix: &Matrix) -> Vec<u64> {
    let columns = (0..matrix.dim()).flat_map(|column| matrix.column(column));
    columns.map(|entry| entry.to_bits()).collect()
}

/// Texts that have mirrors and walls, with trees, a cycle of four, fractions and unjoined nodes.
const TEXTS: [&str; 9] = [
    "x",
    "x3o4o",
    "x5o3o3o",
    "x3o3o *b3o",
    "x5/2o5o",
    "x3/2o2o7/3o",
    "x3o3o3o3o3o3o3o3o",
    "o5/2o3/2o5/2o3/2*a",
    "ooooooooo",
];

/// Checks unit normals: where an edge m joins nodes, they meet with `sign` times cos(pi/m).
fn check_normals(cox: &Cox, normals: &Matrix, sign: f64) {
    assert_eq!(normals.dim(), cox.dim());
    let pairs = (0..cox.dim()).flat_map(|j| (0..cox.dim()).map(move |i| (i, j)));
    for (i, j) in pairs {
        let cosine = sign * (PI / cox[(i, j)]).cos();
        let expected = if i == j { 1.0 } else { cosine };
        let met = dot(normals.column(i), normals.column(j));
        assert!(near(met, expected), "{cox:?}: {i} and {j} with {met}");
        assert!(i <= j || normals[(i, j)] == 0.0, "upper triangular");
    }
}

#[test]
fn a_matrix_has_the_edges_of_its_diagram() -> CdResult<()> {
    let cd = Cd::parse("x5/2o3o *a3*a")?;
    let cox = cd.cox();
    assert_eq!(cox.dim(), 3);
    let expected = [[1.0, 2.5, 2.0], [2.5, 1.0, 3.0], [2.0, 3.0, 1.0]];
    for (i, row) in expected.iter().enumerate() {
        for (j, &entry) in row.iter().enumerate() {
            assert_eq!(cox[(i, j)], entry);
        }
    }
    assert_eq!(cox, Cox::parse("x5/2o3o")?);
    assert_eq!(cox, Cox::parse("x10/4o6/2o")?);
    assert_eq!(cox, Cox::from(cd));
    assert_ne!(cox, Cox::parse("x5/2o3o3o")?);
    Ok(())
}

#[test]
fn mirrors_and_walls_are_unit_normals_at_the_angles_of_the_edges() -> CdResult<()> {
    for text in TEXTS {
        let cox = Cox::parse(text)?;
        check_normals(&cox, &cox.normals()?, 1.0);
        check_normals(&cox, &cox.walls()?, -1.0);
    }
    Ok(())
}

/// Without odd cycles: each normal may be turned so that all products are negated.
#[test]
fn walls_are_mirrors_but_for_signs() -> CdResult<()> {
    let positive = |entries: Vec<u64>| -> Vec<u64> {
        let without_sign = entries.iter().map(|bits| bits & (u64::MAX >> 1));
        without_sign.collect()
    };
    for text in TEXTS {
        let cox = Cox::parse(text)?;
        let [walls, mirrors] = [cox.walls()?, cox.normals()?].map(|normals| bits(&normals));
        assert_eq!(positive(walls), positive(mirrors), "{text}");
    }
    Ok(())
}

#[test]
fn walls_at_right_angles_have_a_negated_zero() -> CdResult<()> {
    for text in ["x2x", "xx"] {
        let wanted = [1.0, 0.0, -0.0, 1.0].map(f64::to_bits);
        assert_eq!(bits(&Cox::parse(text)?.walls()?), wanted, "{text}");
    }
    Ok(())
}

/// Odd cycles, in which no turning of normals negates all products.
#[test]
fn a_cycle_may_have_mirrors_or_walls_alone() -> CdResult<()> {
    let refusal = CdError::Crowded { column: 2 };

    let tiling = Cd::parse("x3o3o3*a")?;
    check_normals(&tiling.cox(), &tiling.cox().normals()?, 1.0);
    assert!(tiling.generator().is_ok());
    assert_eq!(tiling.cox().walls(), Err(refusal));
    assert_eq!(tiling.wall_generator(), Err(refusal));

    let narrow = Cd::parse("x5/4o5/4o5/4*a")?;
    check_normals(&narrow.cox(), &narrow.cox().walls()?, -1.0);
    assert!(narrow.wall_generator().is_ok());
    assert_eq!(narrow.cox().normals(), Err(refusal));
    assert_eq!(narrow.generator(), Err(refusal));
    Ok(())
}

#[test]
fn a_generator_solves_for_the_lengths() -> CdResult<()> {
    let cd = Cd::parse("x3o4q")?;
    let (mirrors, point) = (cd.cox().normals()?, cd.generator()?);
    for (i, node) in cd.node_iter().enumerate() {
        let row: Vec<f64> = (0..3).map(|j| mirrors[(i, j)]).collect();
        assert!(near(dot(&row, point.coordinates()), node.value()));
    }
    let squares = dot(point.coordinates(), point.coordinates());
    assert!(near(point.radius(), squares.sqrt()));
    assert_eq!(cd.circumradius()?, point.radius());
    Ok(())
}

/// As in miratope-core: these are two texts of one figure.
#[test]
fn a_generator_depends_on_the_order_of_the_nodes() -> CdResult<()> {
    assert!(near(Cd::parse("x3o4o")?.circumradius()?, 1.0));
    assert!(near(Cd::parse("o4o3x")?.circumradius()?, 5.0_f64.sqrt()));
    Ok(())
}

fn check_distances(cd: &Cd) -> CdResult<()> {
    let (walls, point) = (cd.cox().walls()?, cd.wall_generator()?);
    assert_eq!(point.coordinates().len(), cd.dim());
    for (i, node) in cd.node_iter().enumerate() {
        let distance = dot(walls.column(i), point.coordinates());
        assert!(near(distance, node.value() / 2.0), "{}: {i}", cd.text());
    }
    let squares = dot(point.coordinates(), point.coordinates());
    assert!(near(point.radius(), squares.sqrt()), "{}", cd.text());
    Ok(())
}

#[test]
fn a_wall_generator_is_at_half_the_lengths_from_the_walls() -> CdResult<()> {
    let several = [
        "x3x4x",
        "x3o4q",
        "s3s4s",
        "(-1)3o4(2.5)",
        "(0.1)5/3(-7)3u",
        "x3/2x2(-0)7/3(0.25)",
        "x5/4(3)5/4(-2)5/4*a",
        "F3o3o3o3o3(0.3)3o *e3q",
    ];
    for text in TEXTS.into_iter().chain(several) {
        check_distances(&Cd::parse(text)?)?;
    }
    Ok(())
}

fn check_spellings(spellings: &[&str]) -> CdResult<()> {
    let first = Cd::parse(spellings[0])?;
    let radius = first.wall_generator()?.radius();
    for text in &spellings[1..] {
        let cd = Cd::parse(text)?;
        assert_eq!(cd.record(), first.record(), "{text}");
        assert!(near(cd.wall_generator()?.radius(), radius), "{text}");
    }
    Ok(())
}

#[test]
fn a_wall_generator_has_one_radius_for_every_spelling() -> CdResult<()> {
    let figures: [&[&str]; 6] = [
        &["x3o4o", "o4o3x", "o6/2x *a4o", "x3o4o *a5*a"],
        &["o3o3o3o3o3x *c3o", "x3o3o3o3o3o *d3o"],
        &["(1.5)4o3(-2)", "(-2)3o4(1.5)", "o4(1.5) *a3(-2)"],
        &["x5/2o5q", "q5o5/2x"],
        &["x5/4o5/4u5/4*a", "u5/4x5/4o5/4*a"],
        &["x2q3o", "o3q2x", "q2x *a3o"],
    ];
    figures.into_iter().try_for_each(check_spellings)
}

/// Of polytopes of edge 1, in closed form.
#[test]
fn a_wall_generator_has_the_circumradius() -> CdResult<()> {
    let golden = 2.0 * (PI / 5.0).cos();
    let polytopes = [
        ("x4o", 0.5_f64.sqrt()),
        ("x4o3o", 0.75_f64.sqrt()),
        ("x3o5o", (PI / 10.0).cos()),
        ("x5o3o", 0.75_f64.sqrt() * golden),
        ("x5/2o5o", (PI / 5.0).sin()),
        ("x3x4x", (3.25 + 4.5_f64.sqrt()).sqrt()),
        ("x3o4o3o", 1.0),
        ("x3o3o5o", golden),
        ("o3o3o3o3o3x *c3o", 0.75_f64.sqrt()),
    ];
    for (text, radius) in polytopes {
        let found = Cd::parse(text)?.wall_generator()?.radius();
        assert!(near(found, radius), "{text}: {found}");
    }
    assert_eq!(Cd::parse("x")?.wall_generator()?.radius(), 0.5);
    Ok(())
}

#[test]
fn no_nodes_have_a_point_at_the_origin() -> CdResult<()> {
    let cd = Cd::parse("*a")?;
    assert_eq!(cd.cox().walls()?.dim(), 0);
    let point = cd.wall_generator()?;
    assert!(point.coordinates().is_empty());
    assert_eq!(point.radius().to_bits(), 0);
    Ok(())
}

#[test]
fn loops_and_infinite_lengths_change_no_walls() -> CdResult<()> {
    let (cd, looped) = (Cd::parse("x3o4u")?, Cd::parse("x3o4u *a5*a *c7/2*c")?);
    let infinite = Cd::parse_with_infinite("(inf)3o4(-inf)")?;
    let walls = bits(&cd.cox().walls()?);
    assert_eq!(bits(&looped.cox().walls()?), walls);
    assert_eq!(bits(&infinite.cox().walls()?), walls);
    assert_eq!(looped.wall_generator()?, cd.wall_generator()?);
    Ok(())
}

#[test]
fn reflections_turn_their_own_mirrors_and_are_their_own_inverses() -> CdResult<()> {
    let cd = Cd::parse("x3o4o")?;
    let (mirrors, reflections) = (cd.cox().normals()?, cd.reflections()?);
    assert_eq!(reflections.len(), 3);
    let image = |m: &Matrix, v: &[f64]| -> Vec<f64> {
        let entry = |i| (0..3).map(|j| m[(i, j)] * v[j]).sum();
        (0..3).map(entry).collect()
    };
    for (i, reflection) in reflections.iter().enumerate() {
        assert_eq!(reflection.dim(), 3);
        let normal = mirrors.column(i);
        let turned = image(reflection, normal);
        assert!(normal.iter().zip(&turned).all(|(&a, &b)| near(a, -b)));
        let point = [1.0, 2.0, 3.0];
        let back = image(reflection, &image(reflection, &point));
        assert!(point.iter().zip(&back).all(|(&a, &b)| near(a, b)));
    }
    Ok(())
}

#[test]
fn families_are_texts() -> CdResult<()> {
    let pairs = [
        (Cox::a(1)?, "o"),
        (Cox::a(4)?, "o3o3o3o"),
        (Cox::b(3)?, "x4o3o"),
        (Cox::b(4)?, "o4o3o3o"),
        (Cox::d(4)?, "o2o3o3o *a3*c"),
        (Cox::e(6)?, "o2o3o3o3o3o *a3*d"),
        (Cox::e(8)?, "o2o3o3o3o3o3o3o *a3*d"),
        (Cox::h(4)?, "o5o3o3o"),
    ];
    for (family, text) in pairs {
        let cox = Cox::parse(text)?;
        assert_eq!(family, cox);
        assert_eq!(bits(&family.normals()?), bits(&cox.normals()?));
        assert_eq!(bits(&family.walls()?), bits(&cox.walls()?));
    }
    Ok(())
}

#[test]
fn families_have_their_sizes() {
    let least = [1, 2, 3, 4, 2];
    for size in (0..=10).chain([usize::MAX]) {
        let made = [Cox::a, Cox::b, Cox::d, Cox::e, Cox::h].map(|family| family(size));
        for (cox, least) in made.into_iter().zip(least) {
            let fits = least <= size && size <= 9;
            let expected = if fits {
                Ok(size)
            } else {
                Err(CdError::NoFamily)
            };
            assert_eq!(cox.map(|cox| cox.dim()), expected);
        }
    }
}

#[test]
fn infinite_groups_have_no_mirrors_and_no_walls() -> CdResult<()> {
    for size in 5..=9 {
        let crowded = Err(CdError::Crowded { column: 4 });
        assert_eq!(Cox::h(size)?.normals(), crowded);
        assert_eq!(Cox::h(size)?.walls(), crowded);
    }
    let crowded = Err(CdError::Crowded { column: 8 });
    assert_eq!(Cox::e(9)?.normals(), crowded);
    assert_eq!(Cox::e(9)?.walls(), crowded);
    Ok(())
}

#[test]
#[should_panic(expected = "index out of bounds")]
fn a_row_out_of_range_panics() {
    let _ = Cox::a(2).unwrap()[(2, 0)];
}

#[test]
#[should_panic(expected = "column 2 of 2")]
fn a_column_out_of_range_panics() {
    let _ = Cox::a(2).unwrap()[(0, 2)];
}
