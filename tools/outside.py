#!/usr/bin/env python3
"""Has GDAL, shapelib and pyshp write pairs of every kind that each can write, and of some kinds with empty places, into a folder; or with --large,
a plan of 60,000 runs each by GDAL and pyshp, and GDAL's again with entries 12 and 31 of its index exchanged.

    tools/outside.py [--large] FOLDER

Needs Debian's gdal-bin, libshp2 and python3-pyshp; run it with the system's python3. The files are not kept in the repository: what the checker
says of them stands in docs/OUTSIDE.md.
"""
import ctypes
import json
import os
import shutil
import subprocess
import sys

LINE = [[0.0, 0.0], [1.0, 1.0], [2.0, 0.0]]
SECOND = [[5.0, 5.0], [6.0, 6.0]]
RING = [[0.0, 0.0], [0.0, 1.0], [1.0, 1.0], [1.0, 0.0], [0.0, 0.0]]
HOLE = [[0.2, 0.2], [0.4, 0.2], [0.4, 0.4], [0.2, 0.4], [0.2, 0.2]]
# Where a plan of three records has empty places, which are written as Null records.
EMPTY = {"first": (1, 0, 0), "middle": (0, 1, 0), "last": (0, 0, 1), "all": (1, 1, 1)}


def run(*words):
    subprocess.run(words, check=True, timeout=60, stdout=subprocess.DEVNULL, stderr=subprocess.DEVNULL)


def gdal(folder):
    """One layer for each kind, from WKT in a CSV file."""
    wkt = {
        "point": "POINT (1 2)",
        "pointm": "POINT M (1 2 4)",
        "pointz": "POINT Z (1 2 3)",
        "pointzm": "POINT ZM (1 2 3 4)",
        "polyline": "MULTILINESTRING ((0 0,1 1,2 0),(5 5,6 6))",
        "polylinem": "MULTILINESTRING M ((0 0 1,1 1 2,2 0 3),(5 5 4,6 6 5))",
        "polylinez": "MULTILINESTRING Z ((0 0 1,1 1 2,2 0 3),(5 5 4,6 6 5))",
        "polylinezm": "MULTILINESTRING ZM ((0 0 1 9,1 1 2 8,2 0 3 7),(5 5 4 6,6 6 5 5))",
        "polygon": "POLYGON ((0 0,0 1,1 1,1 0,0 0),(0.2 0.2,0.4 0.2,0.4 0.4,0.2 0.4,0.2 0.2))",
        "polygonm": "POLYGON M ((0 0 1,0 1 1,1 1 1,1 0 1,0 0 1))",
        "polygonz": "POLYGON Z ((0 0 1,0 1 1,1 1 1,1 0 1,0 0 1))",
        "polygonzm": "POLYGON ZM ((0 0 1 2,0 1 1 2,1 1 1 2,1 0 1 2,0 0 1 2))",
        "multipoint": "MULTIPOINT ((0 0),(1 1),(2 0))",
        "multipointm": "MULTIPOINT M ((0 0 1),(1 1 2),(2 0 3))",
        "multipointz": "MULTIPOINT Z ((0 0 1),(1 1 2),(2 0 3))",
        "multipointzm": "MULTIPOINT ZM ((0 0 1 9),(1 1 2 8),(2 0 3 7))",
    }

    def layer(name, kind, texts):
        source = os.path.join(folder, name + ".csv")
        with open(source, "w") as f:
            f.write("WKT,name\n" + "".join('"%s",run %d\n' % (text, k) for k, text in enumerate(texts)))
        run("ogr2ogr", "-f", "ESRI Shapefile", os.path.join(folder, "gdal_%s.shp" % name), source, "-oo", "KEEP_GEOM_COLUMNS=NO", "-lco", "SHPT=" + kind.upper().replace("POLYLINE", "ARC"))
        os.remove(source)

    for name, text in wkt.items():
        layer(name, name, [text, text])
    # a feature without a geometry in each of the places
    for name in ("point", "polyline", "polygon", "polygonz", "multipoint", "multipointz"):
        for place, empty in EMPTY.items():
            layer("%s_null_%s" % (name, place), name, ["" if e else wkt[name] for e in empty])
    # a set without a point, and one of a single point, in a layer of multipoints
    layer("multipoint_empty", "multipoint", [wkt["multipoint"], "MULTIPOINT EMPTY", wkt["multipoint"]])
    layer("multipoint_one", "multipoint", ["MULTIPOINT ((1 2))", wkt["multipoint"]])
    # a plan of three runs, the second of which is taken down in the file
    layer("taken_down", "polyline", [wkt["polyline"]] * 3)
    run("ogrinfo", os.path.join(folder, "gdal_taken_down.shp"), "-dialect", "SQLite",
        "-sql", "UPDATE gdal_taken_down SET GEOMETRY = NULL WHERE name = 'run 1'")
    # a feature without a geometry in another format, and no feature at all
    source = os.path.join(folder, "some.geojson")
    shapes = [{"type": "Feature", "properties": {"n": 1}, "geometry": {"type": "LineString", "coordinates": LINE}},
              {"type": "Feature", "properties": {"n": 2}, "geometry": None}]
    for name, features in (("with_null", shapes), ("only", shapes[:1])):
        with open(source, "w") as f:
            json.dump({"type": "FeatureCollection", "features": features}, f)
        run("ogr2ogr", "-f", "ESRI Shapefile", os.path.join(folder, "gdal_%s.shp" % name), source)
    run("ogr2ogr", "-f", "ESRI Shapefile", os.path.join(folder, "gdal_empty.shp"), source, "-where", "n > 5")
    os.remove(source)


def shapelib(folder):
    """The C library itself: points, arcs, polygons and multipoints, with m and with z."""
    lib = ctypes.CDLL("libshp.so.2")
    lib.SHPCreate.restype = lib.SHPCreateObject.restype = ctypes.c_void_p
    lib.SHPWriteObject.argtypes = [ctypes.c_void_p, ctypes.c_int, ctypes.c_void_p]
    lib.SHPDestroyObject.argtypes = lib.SHPClose.argtypes = [ctypes.c_void_p]
    doubles = lambda values: (ctypes.c_double * len(values))(*values)

    def pair(name, kind, empty):
        handle = lib.SHPCreate(os.path.join(folder, "shapelib_" + name).encode(), kind)
        for e in empty:
            parts = [] if e else [[[1.0, 2.0]]] if kind in (1, 11, 21) else [RING, HOLE] if kind in (5, 15, 25) else [LINE] if kind in (8, 18, 28) else [LINE, SECOND]
            xy = [c for part in parts for c in part]
            if kind in (8, 18, 28):
                parts = []
            starts = [sum(len(part) for part in parts[:i]) for i in range(len(parts))]
            shape = lib.SHPCreateObject(
                0 if e else kind, -1, len(parts), (ctypes.c_int * len(starts))(*starts), None, len(xy),
                doubles([c[0] for c in xy]), doubles([c[1] for c in xy]), doubles([3.0] * len(xy)), doubles([4.0] * len(xy)))
            lib.SHPWriteObject(handle, -1, shape)
            lib.SHPDestroyObject(shape)
        lib.SHPClose(handle)

    kinds = {"point": 1, "pointm": 21, "pointz": 11, "arc": 3, "arcm": 23, "arcz": 13, "polygon": 5, "polygonm": 25, "polygonz": 15,
             "multipoint": 8, "multipointm": 28, "multipointz": 18}
    for name, kind in kinds.items():
        pair(name, kind, (0, 0))
    pair("null", 0, (1, 1))
    pair("empty", 3, ())
    for name in ("point", "arc", "polygon", "polygonz", "multipoint", "multipointz"):
        for place, empty in EMPTY.items():
            pair("%s_null_%s" % (name, place), kinds[name], empty)


def pyshp(folder):
    import shapefile
    lines = {"line": [LINE, SECOND], "poly": [RING, HOLE]}

    def pair(name, kind, empty):
        with shapefile.Writer(os.path.join(folder, "pyshp_" + name), shapeType=kind) as w:
            w.field("name", "C")
            for k, e in enumerate(empty):
                if e:
                    w.null()
                elif kind == 1:
                    w.point(1.0, 2.0)
                elif kind == 21:
                    w.pointm(1.0, 2.0, 4.0)
                elif kind == 11:
                    w.pointz(1.0, 2.0, 3.0, 4.0)
                elif kind in (8, 18, 28):
                    points = [xy + [1.0] * {8: 0, 28: 1, 18: 2}[kind] for xy in LINE]
                    {8: w.multipoint, 28: w.multipointm, 18: w.multipointz}[kind](points)
                else:
                    parts = lines["line" if kind in (3, 13, 23) else "poly"]
                    extra = {3: 0, 5: 0, 23: 1, 25: 1, 13: 2, 15: 2}[kind]
                    parts = [[xy + [1.0] * extra for xy in part] for part in parts]
                    {3: w.line, 23: w.linem, 13: w.linez, 5: w.poly, 25: w.polym, 15: w.polyz}[kind](parts)
                w.record("run %d" % k)

    kinds = {"point": 1, "pointm": 21, "pointz": 11, "polyline": 3, "polylinem": 23, "polylinez": 13, "polygon": 5, "polygonm": 25, "polygonz": 15,
             "multipoint": 8, "multipointm": 28, "multipointz": 18}
    for name, kind in kinds.items():
        pair(name, kind, (0, 0))
    pair("null", 0, (1, 1))
    pair("empty", 3, ())
    for name in ("point", "polyline", "polygon", "polygonz", "multipoint", "multipointz"):
        for place, empty in EMPTY.items():
            pair("%s_null_%s" % (name, place), kinds[name], empty)


def large_gdal(folder):
    source = os.path.join(folder, "runs.csv")
    with open(source, "w") as f:
        f.write("WKT,n\n")
        for i in range(60000):
            x, y = i % 300, i // 300
            f.write('"LINESTRING (%d %d,%d %d)",%d\n' % (x, y, x + 1, y, i))
    plan = os.path.join(folder, "gdal_60000")
    run("ogr2ogr", "-f", "ESRI Shapefile", plan + ".shp", source, "-oo", "KEEP_GEOM_COLUMNS=NO")
    os.remove(source)
    exchanged = os.path.join(folder, "exchanged")
    shutil.copy(plan + ".shp", exchanged + ".shp")
    with open(plan + ".shx", "rb") as f:
        index = bytearray(f.read())
    a, b = (100 + 8 * (k - 1) for k in (12, 31))
    index[a:a + 8], index[b:b + 8] = index[b:b + 8], index[a:a + 8]
    with open(exchanged + ".shx", "wb") as f:
        f.write(index)


def large_pyshp(folder):
    import shapefile
    with shapefile.Writer(os.path.join(folder, "pyshp_60000"), shapeType=shapefile.POLYLINEM) as w:
        w.field("n", "N")
        for i in range(60000):
            x, y = i % 300, i // 300
            w.linem([[[x, y, i], [x + 0.9, y, i + 1], [x + 0.9, y + 0.5, i + 2]]])
            w.record(i)


def main():
    words = sys.argv[1:]
    large = words[:1] == ["--large"]
    if len(words) != 1 + large:
        print(__doc__.strip())
        return 2
    folder = words[-1]
    os.makedirs(folder, exist_ok=True)
    for producer in (large_gdal, large_pyshp) if large else (gdal, shapelib, pyshp):
        try:
            producer(folder)
        except (OSError, subprocess.SubprocessError, ImportError) as e:
            print("%s: %s" % (producer.__name__, e), file=sys.stderr)
            return 1
    return 0


if __name__ == "__main__":
    sys.exit(main())
