//! Block meshes: a cube of n×n×n cells as hexahedra, as hexahedra between layers of prisms or as polyhedra, with or without
//! the parents of their faces, and many small zones. Lawful images of any size up to the limits, for examples and benchmarks.

use crate::build::{Image, Node};
use crate::cases::beginning;
use crate::elements::{shape_of, Shape, MIXED, NFACE_N, NGON_N};

/// The element types of hexahedra and of prisms.
pub const HEXA_8: i64 = 17;
pub const PENTA_6: i64 = 14;

/// A grid of n×n×n cells: how its vertices, faces and cells are numbered, all from 0.
#[derive(Clone, Copy, Debug)]
struct Block {
    n: i64,
}

impl Block {
    /// How many vertices there are.
    fn vertices(self) -> i64 {
        (self.n + 1).pow(3)
    }

    /// How many cells there are.
    fn cells(self) -> i64 {
        self.n.pow(3)
    }

    /// The vertex number, from 1, at a grid point.
    fn vertex(self, [i, j, k]: [i64; 3]) -> i64 {
        1 + i + (self.n + 1) * (j + (self.n + 1) * k)
    }

    /// The cells' lowest grid points, the first direction fastest.
    fn cell_points(self) -> impl Iterator<Item = [i64; 3]> {
        let n = self.n;
        (0..n).flat_map(move |k| (0..n).flat_map(move |j| (0..n).map(move |i| [i, j, k])))
    }

    /// The eight vertices of the cell at a grid point, in the order of HEXA_8.
    fn hexahedron(self, [i, j, k]: [i64; 3]) -> [i64; 8] {
        let v = |a, b, c| self.vertex([i + a, j + b, k + c]);
        [v(0, 0, 0), v(1, 0, 0), v(1, 1, 0), v(0, 1, 0), v(0, 0, 1), v(1, 0, 1), v(1, 1, 1), v(0, 1, 1)]
    }

    /// The two prisms of the cell at a grid point, each as six vertices in the order of PENTA_6. Their triangles lie
    /// across the first direction, so that the cells above and below are met by four vertices each.
    fn prisms(self, point: [i64; 3]) -> [[i64; 6]; 2] {
        let [a, e, f, b, d, h, g, c] = self.hexahedron(point);
        [[a, b, c, e, f, g], [a, c, d, e, g, h]]
    }

    /// How many layers of cells at the bottom, and as many at the top, are prisms in a mesh of both.
    fn prism_layers(self) -> i64 {
        (self.n / 8).max(1)
    }

    /// Whether the cell at a grid point is split into prisms in a mesh of both.
    fn is_split(self, [_, _, k]: [i64; 3]) -> bool {
        k.min(self.n - 1 - k) < self.prism_layers()
    }

    /// The four vertices of the face across direction `d` at a grid point; its normal points along `d`.
    fn face(self, d: usize, point: [i64; 3]) -> [i64; 4] {
        let (e, f) = ((d + 1) % 3, (d + 2) % 3);
        let corner = |along_e: i64, along_f: i64| {
            let mut p = point;
            p[e] += along_e;
            p[f] += along_f;
            self.vertex(p)
        };
        [corner(0, 0), corner(1, 0), corner(1, 1), corner(0, 1)]
    }

    /// Where the face across direction `d` at a grid point stands in a list of all faces, direction by direction.
    fn face_index(self, d: usize, point: [i64; 3]) -> usize {
        let planes = self.n + 1;
        let (e, f) = ((d + 1) % 3, (d + 2) % 3);
        let within = point[d] + planes * (point[e] + self.n * point[f]);
        (d as i64 * planes * self.n * self.n + within) as usize
    }

    /// The faces of all cells.
    fn faces(self) -> FaceNumbers {
        let total = 3 * (self.n + 1) * self.n * self.n;
        let mut faces = FaceNumbers { numbers: vec![0; total as usize], inner: Vec::new(), outer: Vec::new() };
        for outer in [false, true] {
            for d in 0..3 {
                self.number_faces(d, outer, &mut faces);
            }
        }
        faces
    }

    /// Numbers the inner or the outer faces across one direction and lists their vertices.
    fn number_faces(self, d: usize, outer: bool, faces: &mut FaceNumbers) {
        let (e, f) = ((d + 1) % 3, (d + 2) % 3);
        for b in 0..self.n {
            for a in 0..self.n {
                for plane in 0..=self.n {
                    if (plane == 0 || plane == self.n) != outer {
                        continue;
                    }
                    let mut point = [0; 3];
                    (point[d], point[e], point[f]) = (plane, a, b);
                    let list = if outer { &mut faces.outer } else { &mut faces.inner };
                    list.extend(self.face(d, point));
                    let number = (faces.inner.len() + faces.outer.len()) / 4;
                    faces.numbers[self.face_index(d, point)] = number as i64;
                }
            }
        }
    }

    /// The six faces of the cell at a grid point, negative where the face's normal points into the cell.
    fn cell_faces(self, point: [i64; 3], faces: &FaceNumbers) -> [i64; 6] {
        let mut six = [0; 6];
        for d in 0..3 {
            let mut beyond = point;
            beyond[d] += 1;
            six[2 * d] = -faces.numbers[self.face_index(d, point)];
            six[2 * d + 1] = faces.numbers[self.face_index(d, beyond)];
        }
        six
    }

    /// Adds the coordinates of the vertices to a zone, three arrays of R8 on the unit cube.
    fn add_coordinates(self, image: &mut Image, zone: usize) {
        let grid = image.add(zone, Node::empty("GridCoordinates", "GridCoordinates_t"));
        let points = self.n + 1;
        for (d, name) in ["CoordinateX", "CoordinateY", "CoordinateZ"].into_iter().enumerate() {
            let step = points.pow(d as u32);
            let place = |v: i64| (v / step % points) as f64 / self.n as f64;
            let data = (0..self.vertices()).flat_map(|v| place(v).to_le_bytes()).collect();
            image.add(grid, Node::new(name, "DataArray_t", "R8", &[self.vertices() as u64], data));
        }
    }
}

/// The faces of a block: for each its number, from 1, and the vertices of inner and of outer ones in the order of their
/// numbers, inner ones first.
struct FaceNumbers {
    numbers: Vec<i64>,
    inner: Vec<i64>,
    outer: Vec<i64>,
}

/// The two parents of each of so many faces: the cells that use it, the one with the lower number first, or one cell and
/// 0. The cells have six faces each, and their numbers follow those of the faces.
fn parents(faces: usize, cells: &[i64]) -> Vec<[i64; 2]> {
    let mut pairs = vec![[0; 2]; faces];
    for (k, face) in cells.iter().enumerate() {
        let (pair, cell) = (&mut pairs[face.unsigned_abs() as usize - 1], (faces + 1 + k / 6) as i64);
        pair[usize::from(pair[0] != 0)] = cell;
    }
    pairs
}

/// A section to be added.
struct Elements<'a> {
    name: &'a str,
    element_type: i64,
    /// The number of the first element.
    first: i64,
    /// How many connectivity entries each element has.
    sizes: Vec<i64>,
    connectivity: &'a [i64],
    /// The parents of faces; none where there are no pairs.
    parents: &'a [[i64; 2]],
}

/// The sizes of elements of so many entries each, all of a connectivity together.
fn equal_sizes(size: usize, connectivity: &[i64]) -> Vec<i64> {
    vec![size as i64; connectivity.len() / size]
}

impl Elements<'_> {
    /// Adds the section to a zone, with start offsets where its type needs them, and answers the number after its last
    /// element.
    fn add(&self, image: &mut Image, zone: usize, width: usize) -> i64 {
        let next = self.first + self.sizes.len() as i64;
        let own = Node::integers(self.name, "Elements_t", 4, &[2], &[self.element_type, 0]);
        let section = image.add(zone, own);
        let range = [self.first, next - 1];
        image.add(section, Node::integers("ElementRange", "IndexRange_t", width, &[2], &range));
        if shape_of(self.element_type).is_some_and(Shape::has_offsets) {
            image.add(section, Node::start_offsets(width, &self.sizes));
        }
        image.add(section, Node::list("ElementConnectivity", width, self.connectivity));
        if !self.parents.is_empty() {
            image.add(section, Node::parent_elements(width, self.parents));
        }
        next
    }
}

/// Adds a base of three dimensions.
fn add_base(image: &mut Image) -> usize {
    image.add(0, Node::integers("Base", "CGNSBase_t", 4, &[2], &[3, 3]))
}

/// Adds an unstructured zone of a block.
fn add_zone(image: &mut Image, base: usize, name: &str, block: Block, cells: i64, width: usize) -> usize {
    let sizes = [block.vertices(), cells, 0];
    let zone = image.add(base, Node::integers(name, "Zone_t", width, &[1, 3], &sizes));
    image.add(zone, Node::text("ZoneType", "ZoneType_t", "Unstructured"));
    zone
}

/// What a mesh of polyhedra has beside its faces and cells: coordinates, and the parents of its faces.
#[derive(Clone, Copy, Debug)]
struct Beside {
    coordinates: bool,
    parents: bool,
}

/// n×n×n cells as polyhedra: inner faces, cells, outer faces. Cells use a face with either sign.
pub fn polyhedra(n: i64, width: usize) -> Image {
    polyhedra_with(n, width, Beside { coordinates: true, parents: false })
}

/// The same with the parents of all faces.
pub fn polyhedra_and_parents(n: i64, width: usize) -> Image {
    polyhedra_with(n, width, Beside { coordinates: true, parents: true })
}

/// The same with the parents of all faces, and without coordinates.
pub fn parents_alone(n: i64, width: usize) -> Image {
    polyhedra_with(n, width, Beside { coordinates: false, parents: true })
}

/// n×n×n cells as polyhedra, and what stands beside them.
fn polyhedra_with(n: i64, width: usize, beside: Beside) -> Image {
    let block = Block { n };
    let mut image = beginning();
    let base = add_base(&mut image);
    let zone = add_zone(&mut image, base, "Polyhedra", block, block.cells(), width);
    if beside.coordinates {
        block.add_coordinates(&mut image, zone);
    }
    let faces = block.faces();
    let cells: Vec<i64> = block.cell_points().flat_map(|point| block.cell_faces(point, &faces)).collect();
    let (inner, all) = (faces.inner.len() / 4, faces.numbers.len());
    let parents = if beside.parents { parents(all, &cells) } else { Vec::new() };
    let (of_inner, of_outer) = parents.split_at(inner.min(parents.len()));
    let mut add = |name, element_type, first, size, connectivity: &[i64], parents: &[[i64; 2]]| {
        let sizes = equal_sizes(size, connectivity);
        Elements { name, element_type, first, sizes, connectivity, parents }.add(&mut image, zone, width)
    };
    let mut next = 1;
    if inner > 0 {
        next = add("InnerFaces", NGON_N, next, 4, &faces.inner, of_inner);
    }
    add("Cells", NFACE_N, all as i64 + 1, 6, &cells, &[]);
    add("OuterFaces", NGON_N, next, 4, &faces.outer, of_outer);
    image
}

/// Adds n×n×n hexahedra to a zone.
fn add_hexahedra(image: &mut Image, zone: usize, block: Block, width: usize) {
    let cells: Vec<i64> = block.cell_points().flat_map(|point| block.hexahedron(point)).collect();
    let sizes = equal_sizes(8, &cells);
    Elements { name: "Hexahedra", element_type: HEXA_8, first: 1, sizes, connectivity: &cells, parents: &[] }
        .add(image, zone, width);
}

/// n×n×n cells as hexahedra.
pub fn hexahedra(n: i64, width: usize) -> Image {
    let block = Block { n };
    let mut image = beginning();
    let base = add_base(&mut image);
    let zone = add_zone(&mut image, base, "Hexahedra", block, block.cells(), width);
    block.add_coordinates(&mut image, zone);
    add_hexahedra(&mut image, zone, block, width);
    image
}

/// n×n×n cells in one MIXED section, layer by layer: hexahedra, and at the bottom and at the top an eighth of the layers,
/// one at least, whose cells are two prisms each.
pub fn mixed(n: i64, width: usize) -> Image {
    let block = Block { n };
    let (mut sizes, mut connectivity) = (Vec::new(), Vec::new());
    let mut element = |element_type, nodes: &[i64]| {
        sizes.push(1 + nodes.len() as i64);
        connectivity.push(element_type);
        connectivity.extend_from_slice(nodes);
    };
    for point in block.cell_points() {
        if block.is_split(point) {
            block.prisms(point).iter().for_each(|prism| element(PENTA_6, prism));
        } else {
            element(HEXA_8, &block.hexahedron(point));
        }
    }
    let mut image = beginning();
    let base = add_base(&mut image);
    let zone = add_zone(&mut image, base, "Mixed", block, sizes.len() as i64, width);
    block.add_coordinates(&mut image, zone);
    Elements { name: "Cells", element_type: MIXED, first: 1, sizes, connectivity: &connectivity, parents: &[] }
        .add(&mut image, zone, width);
    image
}

/// A structured zone of n×n×n cells with one rind plane on either side of the last direction, and a flow solution at
/// cell centres.
pub fn structured(n: i64, width: usize) -> Image {
    let mut image = beginning();
    let base = add_base(&mut image);
    let zone = add_structured(&mut image, base, "Structured", n, width);
    add_rind_coordinates(&mut image, zone, n);
    let flow = image.add(zone, Node::empty("FlowSolution", "FlowSolution_t"));
    image.add(flow, Node::text("GridLocation", "GridLocation_t", "CellCenter"));
    let values: Vec<u8> = (0..n * n * n).flat_map(|k| (1.0 + k as f32 / 4.0).to_le_bytes()).collect();
    image.add(flow, Node::new("Density", "DataArray_t", "R4", &[n as u64; 3], values));
    image
}

/// Adds a structured zone.
fn add_structured(image: &mut Image, base: usize, name: &str, n: i64, width: usize) -> usize {
    let v = n + 1;
    let zone = image.add(base, Node::integers(name, "Zone_t", width, &[3, 3], &[v, v, v, n, n, n, 0, 0, 0]));
    image.add(zone, Node::text("ZoneType", "ZoneType_t", "Structured"));
    zone
}

/// Adds the coordinates of a structured zone, with one rind plane on either side of the last direction.
fn add_rind_coordinates(image: &mut Image, zone: usize, n: i64) {
    let grid = image.add(zone, Node::empty("GridCoordinates", "GridCoordinates_t"));
    image.add(grid, Node::integers("Rind", "Rind_t", 4, &[6], &[0, 0, 0, 0, 1, 1]));
    let sizes = [n + 1, n + 1, n + 3];
    for (d, name) in ["CoordinateX", "CoordinateY", "CoordinateZ"].into_iter().enumerate() {
        let step: i64 = sizes[..d].iter().product();
        let before = if d == 2 { 1 } else { 0 };
        let place = |p: i64| (p / step % sizes[d] - before) as f64 / n as f64;
        let data = (0..sizes.iter().product()).flat_map(|p| place(p).to_le_bytes()).collect();
        image.add(grid, Node::new(name, "DataArray_t", "R8", &sizes.map(|s| s as u64), data));
    }
}

/// Many small zones in one base: of every four two have eight hexahedra, one is structured with a coordinate, one has
/// its type alone.
pub fn zones(count: i64, width: usize) -> Image {
    let mut image = beginning();
    let base = add_base(&mut image);
    for k in 0..count {
        let name = format!("Zone{k}");
        match k % 4 {
            0 | 2 => {
                let block = Block { n: 2 };
                let zone = add_zone(&mut image, base, &name, block, block.cells(), width);
                add_hexahedra(&mut image, zone, block, width);
            }
            place => {
                let zone = add_structured(&mut image, base, &name, 2, width);
                if place == 3 {
                    let grid = image.add(zone, Node::empty("GridCoordinates", "GridCoordinates_t"));
                    let mut array = Node::new("CoordinateX", "DataArray_t", "R8", &[], Vec::new());
                    array.reshape(&[3, 3, 3]);
                    image.add(grid, array);
                }
            }
        }
    }
    image
}

/// The mesh that a word names, or what is wrong: an unknown word, or more than an image may hold.
pub fn mesh(kind: &str, n: u64, width: u64) -> Result<Vec<u8>, String> {
    let make = match kind {
        "poly" => polyhedra,
        "parents" => parents_alone,
        "hex" => hexahedra,
        "mixed" => mixed,
        "zones" => zones,
        _ => return Err(format!("{kind}: not poly, parents, hex, mixed or zones")),
    };
    if !matches!(width, 4 | 8) {
        return Err(format!("{width}: not a width of 4 or 8"));
    }
    if !(1..=4_096).contains(&n) || (kind != "zones" && n > 80) {
        return Err(format!("{n}: too few or too many"));
    }
    let image = make(n as i64, width as usize).to_bytes();
    match crate::validate(&image) {
        Ok(_) => Ok(image),
        Err(rejection) => Err(format!("{kind} {n} {width}: {rejection}")),
    }
}
