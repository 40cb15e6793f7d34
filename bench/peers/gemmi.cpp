// Some commands of `sg` over the headers of gemmi, for bench/peers.sh: triplets and comments on standard input, and data behind a
// divider; lines like those of `sg` on standard output. They come in gemmi's order, and those of `refl` and `merge` show gemmi's
// representatives. But for `ops` gemmi has to find the setting in its table. It expands sites within a distance: here 0.4 of a cell
// with sides of 1,000,000. What it sums, merged values and maps, is of floating point.
//
//     ops | refl H K L | grid A B C | atoms | merge | map A B C
#include <gemmi/grid.hpp>
#include <gemmi/merge.hpp>
#include <gemmi/small.hpp>
#include <gemmi/symmetry.hpp>
#include <algorithm>
#include <cstdio>
#include <cstdlib>
#include <exception>
#include <iostream>
#include <stdexcept>
#include <string>
#include <vector>

using namespace gemmi;

static void add_translation(std::vector<Op::Tran>& translations, Op::Tran const& one) {
  if (std::find(translations.begin(), translations.end(), one) == translations.end()) translations.push_back(one);
}

// gemmi takes the centring translations as they are listed, so their sums are added here.
static void add_sums(std::vector<Op::Tran>& translations) {
  for (size_t i = 0; i < translations.size(); i++)
    for (size_t j = 0; j <= i; j++) {
      Op::Tran sum;
      for (int k = 0; k < 3; k++) sum[k] = (translations[i][k] + translations[j][k]) % Op::DEN;
      add_translation(translations, sum);
    }
}

static GroupOps read_group() {
  GroupOps group;
  group.sym_ops.push_back(Op::identity());
  group.cen_ops.push_back({0, 0, 0});
  for (std::string line; std::getline(std::cin, line);) {
    if (line == "%%") break;
    if (line.empty() || line[0] == '#') continue;
    Op op = parse_triplet(line).wrap();
    if (op.rot == Op::identity().rot) add_translation(group.cen_ops, op.tran);
    else group.sym_ops.push_back(op);
  }
  add_sums(group.cen_ops);
  group.add_missing_elements();
  return group;
}

static const SpaceGroup* setting_of(GroupOps const& group) {
  const SpaceGroup* setting = find_spacegroup_by_ops(group);
  if (!setting) throw std::runtime_error("no tabulated setting");
  return setting;
}

static void print_operators(GroupOps const& group) {
  for (Op op : group) std::puts(op.triplet().c_str());
}

// h.t of an operation that takes the index to its opposite, in parts of a cell.
static int restricted_phase(GroupOps const& group, Op::Miller const& index) {
  Op::Miller opposite{{-index[0], -index[1], -index[2]}};
  for (Op const& op : group.sym_ops)
    if (op.apply_to_hkl(index) == opposite) {
      int product = index[0] * op.tran[0] + index[1] * op.tran[1] + index[2] * op.tran[2];
      return (product % Op::DEN + Op::DEN) % Op::DEN;
    }
  throw std::logic_error("no operation takes the index to its opposite");
}

static void print_class(GroupOps const& group, Op::Miller const& index) {
  int fixing = group.epsilon_factor_without_centering(index);
  bool centric = group.is_reflection_centric(index);
  int size = int(group.sym_ops.size()) / fixing * (centric ? 1 : 2);
  std::printf("%d %d %d %d %d ", index[0], index[1], index[2], size, fixing * int(group.cen_ops.size()));
  if (group.is_systematically_absent(index)) std::puts("absent");
  else if (centric) std::printf("phase %d\n", restricted_phase(group, index));
  else std::puts("free");
}

static void print_classes(GroupOps const& group, int h_most, int k_most, int l_most) {
  ReciprocalAsu unit(setting_of(group));
  for (int h = h_most; h >= -h_most; h--)
    for (int k = k_most; k >= -k_most; k--)
      for (int l = l_most; l >= -l_most; l--)
        if (unit.is_in({{h, k, l}})) print_class(group, {{h, k, l}});
}

template <typename T>
static Grid<T> grid_of(GroupOps const& group, int a, int b, int c) {
  Grid<T> grid;
  grid.spacegroup = setting_of(group);
  grid.set_size_without_checking(a, b, c);
  grid.axis_order = AxisOrder::XYZ;
  return grid;
}

template <typename Do>
static void for_each_point(int a, int b, int c, Do each) {
  for (int i = 0; i < a; i++)
    for (int j = 0; j < b; j++)
      for (int k = 0; k < c; k++) each(i, j, k);
}

// How many points have this one as the first of their orbit. gemmi has no orbits of grid points, but gives each point the least
// number of its orbit.
static std::vector<int> orbit_sizes(GroupOps const& group, int a, int b, int c) {
  Grid<int> grid = grid_of<int>(group, a, b, c);
  for_each_point(a, b, c, [&](int i, int j, int k) { grid.data[grid.index_q(i, j, k)] = (i * b + j) * c + k; });
  grid.symmetrize_min();
  std::vector<int> size(grid.data.size());
  for (int least : grid.data) size[least]++;
  return size;
}

static void print_orbits(GroupOps const& group, int a, int b, int c) {
  std::vector<int> size = orbit_sizes(group, a, b, c);
  for_each_point(a, b, c, [&](int i, int j, int k) {
    if (int points = size[(i * b + j) * c + k]) std::printf("%d %d %d %d\n", i, j, k, points);
  });
}

// gemmi sums a value once for each operator.
static void print_map(GroupOps const& group, int a, int b, int c) {
  std::vector<int> size = orbit_sizes(group, a, b, c);
  Grid<double> grid = grid_of<double>(group, a, b, c);
  for_each_point(a, b, c, [&](int i, int j, int k) { std::cin >> grid.data[grid.index_q(i, j, k)]; });
  grid.symmetrize_sum();
  for_each_point(a, b, c, [&](int i, int j, int k) {
    if (int points = size[(i * b + j) * c + k]) {
      double sum = grid.data[grid.index_q(i, j, k)] * points / group.order();
      std::printf("%d %d %d %d %.0f\n", i, j, k, points, sum);
    }
  });
}

static void print_merged(GroupOps const& group) {
  Intensities list;
  list.spacegroup = setting_of(group);
  int h, k, l;
  double value;
  while (std::cin >> h >> k >> l >> value) list.data.push_back({{{h, k, l}}, 0, 1, value, 1.0});
  list.switch_to_asu_indices();
  list.merge_in_place(DataType::Mean);
  for (Intensities::Refl const& one : list.data) {
    const char* absence = group.is_systematically_absent(one.hkl) ? "absent" : "present";
    std::printf("%d %d %d %d %.0f %s\n", one.hkl[0], one.hkl[1], one.hkl[2], one.nobs, one.value * one.nobs + 0.0, absence);
  }
}

static void print_expanded(GroupOps const& group) {
  SmallStructure cell;
  cell.cell.set(1e6, 1e6, 1e6, 90, 90, 90);
  cell.cell.set_cell_images_from_spacegroup(setting_of(group));
  SmallStructure::Site site;
  while (std::cin >> site.label >> site.fract.x >> site.fract.y >> site.fract.z) cell.sites.push_back(site);
  for (SmallStructure::Site const& one : cell.get_all_unit_cell_sites())
    std::printf("at %s %.6f %.6f %.6f\n", one.label.c_str(), one.fract.x, one.fract.y, one.fract.z);
}

int main(int argc, char** argv) try {
  std::ios::sync_with_stdio(false);
  std::string command = argc > 1 ? argv[1] : "";
  auto word = [&](int place) { return place < argc ? std::atoi(argv[place]) : 0; };
  GroupOps group = read_group();
  if (command == "ops") print_operators(group);
  else if (command == "refl") print_classes(group, word(2), word(3), word(4));
  else if (command == "grid") print_orbits(group, word(2), word(3), word(4));
  else if (command == "atoms") print_expanded(group);
  else if (command == "merge") print_merged(group);
  else if (command == "map") print_map(group, word(2), word(3), word(4));
  else return 2;
  return 0;
} catch (std::exception const& fault) {
  std::fprintf(stderr, "%s\n", fault.what());
  return 8;
}
