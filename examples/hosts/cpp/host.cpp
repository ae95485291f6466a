// A small class round the library, and a host that uses it.
//
// usage: host FOLDER
#include "vino_host.h"

#include <cstdio>
#include <cstring>
#include <fstream>
#include <functional>
#include <iostream>
#include <memory>
#include <optional>
#include <string>
#include <vector>

namespace vino {

// A loaded plug-in with a segment of its own, which it keeps from one completed call to the next where its image asks for that.
class Plugin {
  public:
    // The word of a host's id, or none where the host refuses it.
    using Host = std::function<std::optional<std::uint32_t>(std::uint32_t id, const vino_answer &arguments)>;

    // Loads an image; none where it is refused, with the number of its refusal.
    static std::unique_ptr<Plugin> load(const vino_keys &keys, const std::vector<std::uint8_t> &image, std::uint32_t &refusal) {
        std::unique_ptr<Plugin> made(new Plugin);
        std::uint32_t place = 0;
        made->plugin_.resize(image.size() + 1);
        refusal = vino_load(&keys, image.data(), image.size(), made->plugin_.data(), made->plugin_.size(), &place);
        if (refusal != VINO_LOADED) made.reset();
        return made;
    }

    // Calls the plug-in over a table of words. `bytes` are fed to it, and are what it gives afterwards.
    vino_answer call(vino_request request, std::vector<std::uint8_t> &bytes, std::vector<vino_word> &table, const Host &host) {
        vino_answer answer;
        request.fresh = VINO_KEEPS(plugin_) && called_ ? 0 : 1;
        bytes.reserve(1);
        table.reserve(1);
        vino_begin(plugin_.data(), plugin_.size(), &call_, &request, bytes.data(), bytes.size(), segment_, table.data(), table.size(), &answer);
        while (answer.kind == VINO_WAITING) {
            auto word = host(answer.detail, answer);
            std::uint32_t how = word ? 0 : VINO_NOT_CALLABLE;
            vino_resume(plugin_.data(), plugin_.size(), &call_, how, word.value_or(0), segment_, table.data(), table.size(), &answer);
        }
        if (answer.kind == VINO_RETURNED) {
            called_ = true;
            bytes.assign(segment_ + VINO_BYTES_AT, segment_ + VINO_BYTES_AT + answer.given);
        }
        return answer;
    }

    // Whether the plug-in is still what was loaded.
    bool check() const { return vino_check(plugin_.data(), plugin_.size()) == VINO_LOADED; }

  private:
    Plugin() = default;
    std::vector<std::uint8_t> plugin_; // never empty: a pointer is never null
    vino_call call_;
    std::uint8_t segment_[VINO_SEGMENT] = {};
    bool called_ = false;
};

} // namespace vino

static std::vector<std::uint8_t> image_of(const std::string &path) {
    std::ifstream file(path);
    std::string hex;
    std::vector<std::uint8_t> image;
    file >> hex;
    for (std::size_t i = 0; i + 1 < hex.size(); i += 2) image.push_back(static_cast<std::uint8_t>(std::stoul(hex.substr(i, 2), nullptr, 16)));
    return image;
}

int main(int count, char **words) {
    if (count != 2) return 1;
    vino_keys keys = {};
    keys.count = 1;
    for (const char *name : {"shout", "ask", "bad-divides"}) {
        std::uint32_t refusal = 0;
        auto plugin = vino::Plugin::load(keys, image_of(std::string(words[1]) + "/" + name + ".hex"), refusal);
        if (!plugin) {
            std::cout << name << " refused: L" << refusal << "\n";
            continue;
        }
        std::string text = "hello, plug-in";
        std::vector<std::uint8_t> bytes(text.begin(), text.end());
        std::vector<vino_word> table(4, vino_word{1, 0, 0});
        vino_request request = {};
        request.number = 1;
        request.point = 6;
        request.limit = 1000;
        request.r1 = static_cast<std::uint32_t>(bytes.size());
        auto answer = plugin->call(request, bytes, table, [](std::uint32_t id, const vino_answer &) {
            return id == 2 ? std::optional<std::uint32_t>(4) : std::nullopt;
        });
        std::cout << name << " kind " << answer.kind << " r0 " << answer.r0 << " steps " << answer.steps << " bytes '"
                  << std::string(bytes.begin(), bytes.end()) << "' word 1 " << table[1].value << "\n";
    }
}
