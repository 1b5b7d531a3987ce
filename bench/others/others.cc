// What a user might pick instead, from Debian's packages, behind C functions: Boost.Geometry's R-tree and nanoflann's k-d trees.
// An answer is the payloads of the points found, in any order, and their count.
#include <array>
#include <boost/geometry.hpp>
#include <boost/geometry/index/rtree.hpp>
#include <boost/iterator/function_output_iterator.hpp>
#include <cstdint>
#include <memory>
#include <nanoflann.hpp>
#include <utility>
#include <vector>

namespace bg = boost::geometry;
namespace bgi = boost::geometry::index;

struct Index {
  virtual ~Index() = default;
  // Takes n points, of which the payloads are 0 to n - 1.
  virtual void fill(const double *at, uint32_t n) = 0;
  virtual void insert(const double *, uint32_t) {}
  virtual bool remove(const double *, uint32_t) { return false; }
  virtual uint32_t radius(const double *, double, uint32_t *) const { return 0; }
  virtual uint32_t box(const double *, const double *, uint32_t *) const { return 0; }
  virtual uint32_t nearest(const double *, uint32_t, uint32_t *) const { return 0; }
};

template <std::size_t N> struct Boost : Index {
  using Place = bg::model::point<double, N, bg::cs::cartesian>;
  using Value = std::pair<Place, uint32_t>;
  using Box = bg::model::box<Place>;
  bgi::rtree<Value, bgi::rstar<16>> tree;

  static Place place(const double *at) {
    Place p;
    bg::set<0>(p, at[0]);
    bg::set<1>(p, at[1]);
    if constexpr (N == 3) bg::set<2>(p, at[2]);
    return p;
  }

  template <class Query> uint32_t found(const Query &query, uint32_t *out) const {
    uint32_t n = 0;
    tree.query(query, boost::make_function_output_iterator([&](const Value &v) { out[n++] = v.second; }));
    return n;
  }

  void fill(const double *at, uint32_t n) override {
    for (uint32_t i = 0; i < n; i++) insert(at + N * i, i);
  }
  void insert(const double *at, uint32_t payload) override { tree.insert(Value(place(at), payload)); }
  bool remove(const double *at, uint32_t payload) override { return tree.remove(Value(place(at), payload)) == 1; }
  uint32_t radius(const double *at, double radius, uint32_t *out) const override {
    double low[N], high[N];
    for (std::size_t a = 0; a < N; a++) low[a] = at[a] - radius, high[a] = at[a] + radius;
    const Place centre = place(at);
    auto near = [&](const Value &v) { return bg::comparable_distance(v.first, centre) <= radius * radius; };
    return found(bgi::intersects(Box(place(low), place(high))) && bgi::satisfies(near), out);
  }
  uint32_t box(const double *low, const double *high, uint32_t *out) const override {
    return found(bgi::intersects(Box(place(low), place(high))), out);
  }
  uint32_t nearest(const double *at, uint32_t k, uint32_t *out) const override {
    return found(bgi::nearest(place(at), k), out);
  }
};

// Points as nanoflann wants them; a point's number is its payload.
template <std::size_t N> struct Cloud {
  std::vector<std::array<double, N>> points;

  void add(const double *at) {
    points.emplace_back();
    std::copy(at, at + N, points.back().begin());
  }
  std::size_t kdtree_get_point_count() const { return points.size(); }
  double kdtree_get_pt(std::size_t i, std::size_t axis) const { return points[i][axis]; }
  template <class Bounds> bool kdtree_get_bbox(Bounds &) const { return false; }
};

template <std::size_t N> using Metric = nanoflann::L2_Simple_Adaptor<double, Cloud<N>, double, uint32_t>;

// Built once over all points.
template <std::size_t N> struct Fixed : Index {
  using Tree = nanoflann::KDTreeSingleIndexAdaptor<Metric<N>, Cloud<N>, N, uint32_t>;
  Cloud<N> cloud;
  std::unique_ptr<Tree> tree;
  mutable std::vector<std::pair<uint32_t, double>> pairs;
  mutable std::vector<double> distances;

  void fill(const double *at, uint32_t n) override {
    for (uint32_t i = 0; i < n; i++) cloud.add(at + N * i);
    distances.resize(n);
    tree = std::make_unique<Tree>(N, cloud);
  }
  uint32_t radius(const double *at, double radius, uint32_t *out) const override {
    tree->radiusSearch(at, radius * radius, pairs, nanoflann::SearchParams(32, 0, false));
    for (const auto &pair : pairs) *out++ = pair.first;
    return pairs.size();
  }
  uint32_t nearest(const double *at, uint32_t k, uint32_t *out) const override {
    return tree->knnSearch(at, k, out, distances.data());
  }
};

// Takes points one by one, and lets go of them by marking their numbers.
template <std::size_t N> struct Dynamic : Index {
  using Tree = nanoflann::KDTreeSingleIndexDynamicAdaptor<Metric<N>, Cloud<N>, N, uint32_t>;
  Cloud<N> cloud;
  Tree tree{N, cloud, {}, 1024};

  void fill(const double *at, uint32_t n) override {
    for (uint32_t i = 0; i < n; i++) cloud.add(at + N * i);
    if (n > 0) tree.addPoints(0, n - 1);
  }
  void insert(const double *at, uint32_t payload) override {
    cloud.add(at);
    tree.addPoints(payload, payload);
  }
  bool remove(const double *, uint32_t payload) override {
    tree.removePoint(payload);
    return true;
  }
  uint32_t radius(const double *at, double radius, uint32_t *out) const override {
    std::vector<std::pair<uint32_t, double>> pairs;
    nanoflann::RadiusResultSet<double, uint32_t> result(radius * radius, pairs);
    tree.findNeighbors(result, at, nanoflann::SearchParams(32, 0, false));
    for (const auto &pair : pairs) *out++ = pair.first;
    return pairs.size();
  }
};

template <std::size_t N> Index *made(int kind) {
  if (kind == 0) return new Boost<N>;
  if (kind == 1) return new Fixed<N>;
  return new Dynamic<N>;
}

extern "C" {
Index *others_new(int kind, int axes) { return axes == 2 ? made<2>(kind) : made<3>(kind); }
void others_free(Index *index) { delete index; }
void others_fill(Index *index, const double *at, uint32_t n) { index->fill(at, n); }
void others_insert(Index *index, const double *at, uint32_t payload) { index->insert(at, payload); }
bool others_remove(Index *index, const double *at, uint32_t payload) { return index->remove(at, payload); }
uint32_t others_radius(const Index *index, const double *at, double radius, uint32_t *out) { return index->radius(at, radius, out); }
uint32_t others_box(const Index *index, const double *low, const double *high, uint32_t *out) { return index->box(low, high, out); }
uint32_t others_nearest(const Index *index, const double *at, uint32_t k, uint32_t *out) { return index->nearest(at, k, out); }
}
