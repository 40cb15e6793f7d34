// Some commands of `sg` over the library of cctbx, for bench/peers.sh: triplets and comments on standard input, lines like those
// of `sg` on standard output. They come in cctbx's order, and those of `refl` and `wyckoff` show cctbx's representatives.
//
//     ops | types | wyckoff | refl H K L | grid A B C
#include <cctbx/maptbx/grid_tags.h>
#include <cctbx/miller/index_generator.h>
#include <cctbx/sgtbx/rot_mx_info.h>
#include <cctbx/sgtbx/space_group.h>
#include <cctbx/sgtbx/space_group_type.h>
#include <cctbx/sgtbx/wyckoff.h>
#include <cstdio>
#include <cstdlib>
#include <exception>
#include <iostream>
#include <string>
#include <vector>

using namespace cctbx;

static sgtbx::space_group read_group() {
  sgtbx::space_group group;
  for (std::string line; std::getline(std::cin, line);)
    if (!line.empty() && line[0] != '#') group.expand_smx(sgtbx::rt_mx(line, "", 1, sgtbx::sg_t_den));
  group.make_tidy();
  return group;
}

static void print_operators(sgtbx::space_group const& group) {
  auto operators = group.all_ops(1);
  for (std::size_t i = 0; i < operators.size(); i++) std::puts(operators[i].as_xyz().c_str());
}

static void print_types(sgtbx::space_group const& group) {
  auto operators = group.all_ops(1);
  for (std::size_t i = 0; i < operators.size(); i++) {
    sgtbx::rot_mx_info rotation(operators[i].r());
    std::string kind = rotation.type() == -2 ? "m" : std::to_string(rotation.type());
    std::string intrinsic = sgtbx::translation_part_info(operators[i]).intrinsic_part().as_string();
    std::printf("%s %s %s ", operators[i].as_xyz().c_str(), kind.c_str(), intrinsic.c_str());
    auto axis = rotation.ev();
    bool turned = axis[0] < 0 || (axis[0] == 0 && (axis[1] < 0 || (axis[1] == 0 && axis[2] < 0)));
    if (turned) axis = -axis;
    if (axis.is_zero()) std::puts("-");
    else std::printf("%d,%d,%d\n", axis[0], axis[1], axis[2]);
  }
}

static void print_positions(sgtbx::space_group const& group) {
  sgtbx::space_group_type type(group);
  sgtbx::wyckoff::table table(type);
  for (std::size_t i = 0; i < table.size(); i++) {
    auto position = table.position(i);
    std::printf("%d %d %s\n", int(i + 1), position.multiplicity(), position.special_op().as_xyz().c_str());
  }
}

// The generator leaves absent indices out, so it goes through those of the point group.
static void print_classes(sgtbx::space_group const& group, miller::index<> const& box) {
  miller::index_generator indices(sgtbx::space_group_type(group.build_derived_point_group()), false, box);
  int translations = group.n_ltr();
  for (;;) {
    miller::index<> index = indices.next();
    if (index.is_zero()) break;
    sgtbx::phase_info phase(group, index, false);
    int size = group.multiplicity(index, false), fixing = group.epsilon(index) * translations;
    std::printf("%d %d %d %d %d ", index[0], index[1], index[2], size, fixing);
    if (phase.is_sys_absent()) std::puts("absent");
    else if (phase.is_centric()) std::printf("phase %d\n", phase.ht() * 24 / phase.t_den());
    else std::puts("free");
  }
  std::printf("0 0 0 1 %d phase 0\n", int(group.order_z()));
}

static void print_orbits(sgtbx::space_group const& group, af::int3 const& grid) {
  maptbx::grid_tags<long> tags(grid);
  tags.build(sgtbx::space_group_type(group), sgtbx::search_symmetry_flags(true));
  auto tag = tags.tag_array();
  std::vector<int> size(tag.size());
  for (std::size_t i = 0; i < tag.size(); i++) size[tag[i] < 0 ? i : tag[i]]++;
  for (std::size_t i = 0; i < tag.size(); i++)
    if (tag[i] < 0)
      std::printf("%d %d %d %d\n", int(i / (grid[1] * grid[2])), int(i / grid[2] % grid[1]), int(i % grid[2]), size[i]);
}

int main(int argc, char** argv) try {
  std::string command = argc > 1 ? argv[1] : "";
  auto number = [&](int place) { return place < argc ? std::atoi(argv[place]) : 0; };
  sgtbx::space_group group = read_group();
  if (command == "ops") print_operators(group);
  else if (command == "types") print_types(group);
  else if (command == "wyckoff") print_positions(group);
  else if (command == "refl") print_classes(group, miller::index<>(number(2), number(3), number(4)));
  else if (command == "grid") print_orbits(group, af::int3(number(2), number(3), number(4)));
  else return 2;
  return 0;
} catch (std::exception const& fault) {
  std::fprintf(stderr, "%s\n", fault.what());
  return 8;
}
