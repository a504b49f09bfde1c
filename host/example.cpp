// Asks the gate for every request record of a day, and the desk for a verdict, from C++:
//     example KM0 ACL REQUESTS BUNDLE BUNDLE_ACL
#include <cstdlib>
#include <fstream>
#include <iostream>
#include <iterator>
#include <vector>

#include "akubolinfe.h"

typedef std::vector<uint8_t> bytes;

static bool read_file(const char *name, bytes &into)
{
    std::ifstream f(name, std::ios::binary);
    if (!f) {
        std::cerr << name << ": cannot be read\n";
        return false;
    }
    into.assign(std::istreambuf_iterator<char>(f), std::istreambuf_iterator<char>());
    return true;
}

static void print_day(const bytes &km0, const bytes &acl, const bytes &requests)
{
    akubolinfe_ledger ledger = akubolinfe_fresh();
    akubolinfe_load_in_place(&ledger, 0);
    for (size_t at = 0; AKUBOLINFE_RECORD <= requests.size() - at; at += AKUBOLINFE_RECORD) {
        const akubolinfe_reply r = akubolinfe_request_in_place(&ledger, km0.data(), km0.size(), acl.data(), acl.size(),
                                                               requests.data() + at, AKUBOLINFE_RECORD);
        std::cout << at / AKUBOLINFE_RECORD + 1;
        if (r.refusal)
            std::cout << " refuse " << r.refusal;
        else
            std::cout << " permit";
        if (r.group != AKUBOLINFE_NO_GROUP)
            std::cout << ' ' << r.group;
        std::cout << '\n';
    }
}

static void print_verdict(const bytes &bundle, const bytes &acl)
{
    const akubolinfe_verdict v = akubolinfe_desk(bundle.data(), bundle.size(), acl.data(), acl.size());
    if (akubolinfe_accepted(v))
        std::cout << "accepted: approach " << v.approach << ", protection " << v.protection << ", recoverable " << v.recoverable << '\n';
    else
        std::cout << "not accepted: refusal " << v.refusal << ", step " << v.step << '\n';
}

int main(int count, char **names)
{
    bytes files[5];
    if (count != 6) {
        std::cerr << "usage: example KM0 ACL REQUESTS BUNDLE BUNDLE_ACL\n";
        return EXIT_FAILURE;
    }
    for (int i = 0; i < 5; i++)
        if (!read_file(names[i + 1], files[i]))
            return EXIT_FAILURE;
    print_day(files[0], files[1], files[2]);
    print_verdict(files[3], files[4]);
    return EXIT_SUCCESS;
}
