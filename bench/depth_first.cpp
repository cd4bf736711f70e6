// Compares two bench netlists by a depth-first BDD package, BuDDy: the yardstick of peers.py.
//
// usage: depth_first FIRST SECOND [ORDER]
//        depth_first --version
//
// Inputs and outputs are paired by name. Variables are in the order of the names in the file ORDER; without it in the
// order in which the inputs are met below the first netlist's outputs, operands from left to right. All gates of both
// netlists are built, operand by operand, each operand first. It prints a line for each output, and the number of nodes at the
// end on standard error. The netlists are taken to be right: nothing is checked. BuDDy begins with 65,536 nodes and a computed
// table of 16,384 entries, keeps four nodes for each of these entries as it grows (bdd_setcacheratio(4)), grows by at most 2^24
// nodes at a time, and collects garbage when it is full.
#include <bdd.h>

#include <fstream>
#include <iostream>
#include <string>
#include <unordered_map>
#include <unordered_set>
#include <vector>

struct Gate {
    std::string kind;
    std::vector<std::string> operands;
};

struct Netlist {
    std::vector<std::string> inputs;
    std::vector<std::string> outputs;
    std::unordered_map<std::string, Gate> gates;
};

// The words of a line: runs of bytes without blanks, `=`, parentheses and commas.
static std::vector<std::string> words_of(const std::string& line) {
    std::vector<std::string> words;
    std::string word;
    for (char c : line + " ") {
        if (std::string(" \t\r=(),").find(c) == std::string::npos) {
            word += c;
        } else if (!word.empty()) {
            words.push_back(word);
            word.clear();
        }
    }
    return words;
}

static Netlist read(const char* path) {
    Netlist net;
    std::ifstream file(path);
    for (std::string line; std::getline(file, line);) {
        std::vector<std::string> words = words_of(line.substr(0, line.find('#')));
        if (words.empty()) {
            continue;
        }
        if (words[0] == "INPUT") {
            net.inputs.push_back(words[1]);
        } else if (words[0] == "OUTPUT") {
            net.outputs.push_back(words[1]);
        } else {
            net.gates[words[0]] = {words[1], {words.begin() + 2, words.end()}};
        }
    }
    return net;
}

// The signals below `roots`, each after its operands, and before those that are met later.
static std::vector<std::string> met(const Netlist& net, const std::vector<std::string>& roots) {
    std::vector<std::string> order;
    std::unordered_set<std::string> entered;
    std::vector<std::pair<std::string, size_t>> path;
    for (const std::string& root : roots) {
        if (entered.insert(root).second) {
            path.push_back({root, 0});
        }
        while (!path.empty()) {
            auto gate = net.gates.find(path.back().first);
            if (gate == net.gates.end() || path.back().second == gate->second.operands.size()) {
                order.push_back(path.back().first);
                path.pop_back();
                continue;
            }
            const std::string& next = gate->second.operands[path.back().second++];
            if (entered.insert(next).second) {
                path.push_back({next, 0});
            }
        }
    }
    return order;
}

static bdd value(const Gate& gate, const std::unordered_map<std::string, bdd>& known) {
    const std::string& kind = gate.kind;
    int op = kind == "OR" || kind == "NOR" ? bddop_or : kind == "XOR" || kind == "XNOR" ? bddop_xor : bddop_and;
    bdd result = known.at(gate.operands[0]);
    for (size_t i = 1; i < gate.operands.size(); i++) {
        result = bdd_apply(result, known.at(gate.operands[i]), op);
    }
    bool inverted = kind == "NOT" || kind == "NAND" || kind == "NOR" || kind == "XNOR";
    return inverted ? !result : result;
}

static std::unordered_map<std::string, bdd> build(const Netlist& net, const std::unordered_map<std::string, int>& level) {
    std::unordered_map<std::string, bdd> known;
    for (const std::string& name : met(net, net.outputs)) {
        auto gate = net.gates.find(name);
        known[name] = gate == net.gates.end() ? bdd_ithvar(level.at(name)) : value(gate->second, known);
    }
    return known;
}

static std::unordered_map<std::string, int> levels(const Netlist& first) {
    std::unordered_map<std::string, int> level;
    for (const std::string& name : met(first, first.outputs)) {
        if (!first.gates.count(name)) {
            level.insert({name, (int)level.size()});
        }
    }
    return level;
}

// The levels of the names of a file. It is taken to have each input of both netlists.
static std::unordered_map<std::string, int> listed(const char* path) {
    std::unordered_map<std::string, int> level;
    std::ifstream file(path);
    for (std::string name; file >> name;) {
        level.insert({name, (int)level.size()});
    }
    return level;
}

int main(int count, char** words) {
    if (count == 2 && std::string(words[1]) == "--version") {
        std::cout << bdd_versionstr() << "\n";
        return 0;
    }
    if (count != 3 && count != 4) {
        return 2;
    }
    Netlist first = read(words[1]), second = read(words[2]);
    std::unordered_map<std::string, int> level = count == 4 ? listed(words[3]) : levels(first);
    bdd_init(1 << 16, 1 << 14);
    bdd_gbc_hook(nullptr);
    bdd_setcacheratio(4);
    bdd_setmaxincrease(1 << 24);
    bdd_setvarnum((int)level.size());
    int different = 0;
    {
        std::unordered_map<std::string, bdd> a = build(first, level), b = build(second, level);
        for (const std::string& name : first.outputs) {
            bool equal = a.at(name) == b.at(name);
            std::cout << (equal ? "EQUAL " : "DIFFER ") << name << "\n";
            different += !equal;
        }
        std::cerr << bdd_getnodenum() << " nodes\n";
    }
    bdd_done();
    return different ? 1 : 0;
}
