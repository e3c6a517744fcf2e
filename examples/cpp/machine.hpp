// A machine, and how it is read from its text.
#pragma once
#include <cstdint>
#include <istream>
#include <map>
#include <sstream>
#include <string>
#include <vector>

using u32 = uint32_t;
using u64 = uint64_t;
using std::string;
using std::vector;

enum class Policy { Place, Replicate, Platinum };
enum class Turns { Robin, Random, Listed };
enum class Code { Set, Move, Add, Sub, Mul, And, Shr, Load, Store, Fadd, Switch, Print, Jump, Zero, Less, Halt };
struct Instruction {
    Code code;
    u32 a = 0, b = 0, c = 0;
    u32 number = 0;
    int index = -1;
    int target = 0;
};
struct Entry {
    int space, vpage, page;
};
struct Guest {
    int space;
    vector<Instruction> code;
};

struct Machine {
    int nodes, frames, words, pages;
    Policy policy;
    u64 window = 0, period = 0;
    u32 budget;
    Turns turns;
    u64 seed = 0, stream = 0;
    vector<int> listed;
    int distance[8][8];
    vector<Entry> entries;
    int entry_at[8][64];
    vector<int> of_page[64], of_space[8];
    u32 initial[64][64] = {};
    vector<Guest> guests;
    vector<string> canonical;
};

inline int registered(const string &w) { return std::stoi(w.substr(1)); }

inline Instruction instruction(const vector<string> &w, const std::map<string, int> &labels) {
    static const std::map<string, Code> names = {
        {"set", Code::Set},     {"move", Code::Move}, {"add", Code::Add},       {"sub", Code::Sub},
        {"mul", Code::Mul},     {"and", Code::And},   {"shr", Code::Shr},       {"load", Code::Load},
        {"store", Code::Store}, {"fadd", Code::Fadd}, {"switch", Code::Switch}, {"print", Code::Print},
        {"jump", Code::Jump},   {"zero", Code::Zero}, {"less", Code::Less},     {"halt", Code::Halt}};
    Instruction i{names.at(w[0])};
    auto number = [&](size_t k) { return u32(std::stoul(w[k])); };
    auto address = [&](size_t k) {
        i.number = number(k);
        if (w.size() > k + 1) i.index = registered(w[k + 1]);
    };
    switch (i.code) {
    case Code::Set:
        i.a = registered(w[1]);
        i.number = number(2);
        break;
    case Code::Move:
        i.a = registered(w[1]);
        i.b = registered(w[2]);
        break;
    case Code::Add:
    case Code::Sub:
    case Code::Mul:
    case Code::And:
    case Code::Shr:
        i.a = registered(w[1]);
        i.b = registered(w[2]);
        i.c = registered(w[3]);
        break;
    case Code::Load:
    case Code::Store:
        i.a = registered(w[1]);
        address(2);
        break;
    case Code::Fadd:
        i.a = registered(w[1]);
        i.b = registered(w[2]);
        address(3);
        break;
    case Code::Switch: i.number = number(1); break;
    case Code::Print: i.a = registered(w[1]); break;
    case Code::Jump: i.target = labels.at(w[1]); break;
    case Code::Zero:
        i.a = registered(w[1]);
        i.target = labels.at(w[2]);
        break;
    case Code::Less:
        i.a = registered(w[1]);
        i.b = registered(w[2]);
        i.target = labels.at(w[3]);
        break;
    case Code::Halt: break;
    }
    return i;
}

inline void close_guest(Machine &m, vector<vector<string>> &lines) {
    std::map<string, int> labels;
    int at = 0;
    for (auto &w : lines)
        if (w[0] == "label") labels[w[1]] = at;
        else at++;
    for (auto &w : lines)
        if (w[0] != "label") m.guests.back().code.push_back(instruction(w, labels));
    lines.clear();
}

inline Machine read_machine(std::istream &in) {
    Machine m;
    for (int a = 0; a < 8; a++)
        for (int b = 0; b < 8; b++) m.distance[a][b] = a == b ? 0 : 1;
    for (auto &row : m.entry_at)
        for (int &e : row) e = -1;
    vector<vector<string>> guest;
    string line;
    while (std::getline(in, line)) {
        line = line.substr(0, line.find('#'));
        std::istringstream words(line);
        vector<string> w;
        for (string x; words >> x;) w.push_back(x);
        if (w.empty()) continue;
        string joined = w[0];
        for (size_t k = 1; k < w.size(); k++) joined += " " + w[k];
        m.canonical.push_back(joined);
        auto n = [&](size_t k) { return std::stoul(w[k]); };
        bool in_guest = !m.guests.empty();
        if (w[0] == "guest") {
            if (in_guest) close_guest(m, guest);
            m.guests.push_back({int(n(1)), {}});
        } else if (w[0] == "end") {
            close_guest(m, guest);
        } else if (in_guest) guest.push_back(w);
        else if (w[0] == "nodes") m.nodes = n(1);
        else if (w[0] == "frames") m.frames = n(1);
        else if (w[0] == "words") m.words = n(1);
        else if (w[0] == "pages") m.pages = n(1);
        else if (w[0] == "policy") {
            m.policy = w[1] == "place" ? Policy::Place : w[1] == "replicate" ? Policy::Replicate : Policy::Platinum;
            if (m.policy == Policy::Platinum) {
                m.window = n(2);
                m.period = n(3);
            }
        } else if (w[0] == "budget") m.budget = n(1);
        else if (w[0] == "schedule") {
            m.turns = w[1] == "robin" ? Turns::Robin : w[1] == "random" ? Turns::Random : Turns::Listed;
            if (m.turns == Turns::Random) {
                m.seed = n(2);
                m.stream = n(3);
            }
            if (m.turns == Turns::Listed)
                for (size_t k = 2; k < w.size(); k++) m.listed.push_back(n(k));
        } else if (w[0] == "distance") m.distance[n(1)][n(2)] = n(3);
        else if (w[0] == "map") {
            int e = m.entries.size();
            m.entries.push_back({int(n(1)), int(n(2)), int(n(3))});
            m.entry_at[n(1)][n(2)] = e;
            m.of_page[n(3)].push_back(e);
            m.of_space[n(1)].push_back(e);
        } else if (w[0] == "init") m.initial[n(1)][n(2)] = n(3);
    }
    return m;
}
