// The same calls in WebAssembly, by the interpreter of wabt 1.0. It has no limit of instructions, so there is no endless call here.
//
// usage: wabt MODULE, the module that wat2wasm makes of wabt.wat
#include "measure.h"

#include <wabt/binary-reader.h>
#include <wabt/interp/binary-reader-interp.h>
#include <wabt/interp/interp.h>

#include <fstream>
#include <iterator>
#include <vector>

using namespace wabt;
using namespace wabt::interp;

static Store store;
static std::vector<u8> bytes;
static Func::Ptr function;
static Values parameters, results;
static unsigned calls;

static Instance::Ptr instantiate() {
    Errors errors;
    ModuleDesc description;
    ReadBinaryOptions options;
    if (Failed(ReadBinaryInterp("module", bytes.data(), bytes.size(), options, &errors, &description))) return {};
    auto module = Module::New(store, description);
    auto host = HostFunc::New(store, FuncType{{}, {ValueType::I32}}, [](Thread &, const Values &, Values &given, Trap::Ptr *) {
        given[0].Set<u32>(7);
        return Result::Ok;
    });
    Trap::Ptr trap;
    return Instance::Instantiate(store, module.ref(), {host.ref()}, &trap);
}

static void load_once() {
    instantiate();
}

static void call_once() {
    Trap::Ptr trap;
    results.clear();
    function->Call(store, parameters, results, &trap);
    if (++calls % 1000 == 0) store.Collect();
}

int main(int count, char **words) {
    if (count != 2) return 1;
    std::ifstream file(words[1], std::ios::binary);
    bytes.assign(std::istreambuf_iterator<char>(file), {});
    measure("wabt: load", load_once, 100);
    printf("wabt: bytes for each plug-in\t%d\t0\n", 65536);
    auto instance = instantiate();
    auto pick = [&](size_t number, Values given) {
        function = store.UnsafeGet<Func>(instance->exports()[number]);
        parameters = given;
    };
    pick(0, {Value::Make(2u), Value::Make(3u)});
    measure("wabt: an empty call", call_once, 1000);
    pick(1, {Value::Make(3u), Value::Make(199u)});
    measure("wabt: 199 turns of a loop (999 instructions)", call_once, 100);
    pick(2, {});
    measure("wabt: ten calls of the host", call_once, 100);
    pick(3, {});
    measure("wabt: a dropped call", call_once, 1000);
    return 0;
}
