// Names of plants, names of files, and hashes.
#include "check.h"
#include "names.h"
#include "sha256.h"

using namespace client;
using check::equal;
using check::holds;

namespace {

View bytes_of(std::string_view text) {
    return {reinterpret_cast<const std::uint8_t *>(text.data()), text.size()};
}

Names names_of(std::string_view text) {
    return Names(bytes_of(text));
}

std::string chinese(const Names &names, std::uint16_t id) {
    return names.of({id}, Tongue::chinese);
}

std::string english(const Names &names, std::uint16_t id) {
    return names.of({id}, Tongue::english);
}

void a_list_of_plants() {
    const Names names =
        names_of("753,韩城二厂,Hancheng No. 2\r\n9,\"定边, 一期\",\"Dingbian \"\"One\"\"\"\n10, 靖边 , Jingbian ");
    equal(chinese(names, 753), "韩城二厂");
    equal(english(names, 753), "Hancheng No. 2");
    equal(chinese(names, 9), "定边, 一期");
    equal(english(names, 9), "Dingbian \"One\"");
    equal(english(names, 10), "Jingbian");
    equal(chinese(names, 10), "靖边");
    equal(english(names, 11), "");
    equal(names.passed_over(), 0u);
    equal(names.size(), 3u);
}

void a_mark_a_head_and_empty_lines() {
    const Names names = names_of("\xef\xbb\xbf"
                                 "id,中文,English\r\n\r\n753,韩城,Hancheng\r\n   \r\n");
    equal(english(names, 753), "Hancheng");
    equal(names.passed_over(), 0u);
    // A head is the first line or none.
    equal(names_of("1,a,b\nid,中文,English\n").passed_over(), 1u);
    equal(names_of("\xef\xbb\xbf"
                   "1,a,b")
              .size(),
          1u);
    equal(names_of("").size(), 0u);
    equal(names_of("\xef\xbb\xbf").passed_over(), 0u);
}

void lines_that_are_passed_over() {
    for (const char *line :
         {"0,a,b", "65536,a,b", "-1,a,b", "7 5,a,b", "753", "753,a", "753,a,b,c", "753,,", "x1,a,b", "753,\"a,b",
          "753,\"a\"x,b", "753,a\"b,c", "99999999999999999999,a,b", "1.0,a,b", "753,\xff,\xfe", "１,a,b"}) {
        const Names names = names_of(std::string("1,one,eins\n") + line + "\n2,two,zwei\n");
        equal(names.passed_over(), 1u, line);
        equal(english(names, 1) + english(names, 2), "einszwei", line);
        equal(names.size(), 2u, line);
    }
}

void one_tongue_is_enough() {
    const Names names = names_of("1,一,\n2,,two\n");
    equal(english(names, 1), "一");
    equal(chinese(names, 2), "two");
    equal(names.passed_over(), 0u);
}

void two_names_for_one_row_are_none() {
    const Names names = names_of("1,a,b\n2,a,b\n1,a,c\n2,a,b\n1,a,b\n");
    equal(english(names, 1), "");
    equal(english(names, 2), "b");
    equal(names.passed_over(), 3u);
}

void only_what_prints() {
    const Names names = names_of("1,a\xffz\xc0\xaf,b\xe2\x80\xaeq\x1b[31m\n2,\xed\xa0\x80x,y\xf4\x90\x80\x80\n"
                                 "3,\xef\xbb\xbfq\xe2\x80\x8b,\xc2\xadr\n");
    equal(chinese(names, 1), "az");
    equal(english(names, 1), "bq[31m");
    equal(chinese(names, 2), "x");
    equal(english(names, 2), "y");
    equal(chinese(names, 3) + english(names, 3), "qr");
}

void at_most_64_letters() {
    std::string letters;
    for (int i = 0; i < 64; ++i) {
        letters += "厂";
    }
    equal(chinese(names_of("1," + letters + ",b"), 1), letters);
    equal(names_of("1," + letters + "x,b").passed_over(), 1u);
    equal(names_of("1,b,x" + letters).passed_over(), 1u);
}

void ten_thousand_lines() {
    std::string text = "\xef\xbb\xbf";
    for (int id = 1; id <= 10'000; ++id) {
        text += std::to_string(id) + ",厂" + std::to_string(id) + ",plant " + std::to_string(id) + "\r\n";
    }
    const Names names = names_of(text);
    equal(names.size(), 10'000u);
    equal(english(names, 10'000), "plant 10000");
    equal(chinese(names, 1), "厂1");
}

void names_of_files() {
    for (const char *plain :
         {"2026-10-31-q09.interval", "with space, comma", "第一天 ü", ".hidden", "", "a/b", "{0}"}) {
        equal(shown(plain), plain);
    }
    equal(shown("a\xff\xfe"
                "b\nc\x1b[31m"),
          "a\\xff\\xfeb\\nc\\u{1b}[31m");
    equal(shown("\xe7\xac"), "\\xe7\\xac");
    equal(shown("a\\xff"), "a\\\\xff");
    equal(shown("x\u202elavretni.y\u200b\u2028"), "x\\u{202e}lavretni.y\\u{200b}\\u{2028}");
    equal(shown("\t\r\x7f\x01"), "\\t\\r\\u{7f}\\u{1}");
    equal(shown("\xed\xa0\x80\xc0\xaf\xf5\x80"), "\\xed\\xa0\\x80\\xc0\\xaf\\xf5\\x80");
    equal(shown(std::string_view("a\0b", 3)), "a\\u{0}b");
    equal(shown("\U000e0041\U0001f600\ufeff\uffff"), "\\u{e0041}\U0001f600\\u{feff}\\u{ffff}");
}

// Two names never look the same: all of two bytes, and what they are escaped to.
void escaping_loses_nothing() {
    std::map<std::string, std::string> seen;
    for (unsigned one = 1; one < 256; ++one) {
        for (unsigned other = 1; other < 256; ++other) {
            const std::string name{static_cast<char>(one), static_cast<char>(other)};
            const std::string text = shown(name);
            holds(seen.emplace(text, name).second, "two names are shown as " + text);
            holds(shown(text) == text || text.find('\\') != std::string::npos, text);
        }
    }
}

std::string hash(const std::string &text) {
    return sha256(bytes_of(text));
}

// Vectors of FIPS 180-4's examples and of NIST's short and long messages.
void hashes() {
    equal(hash(""), "e3b0c44298fc1c149afbf4c8996fb92427ae41e4649b934ca495991b7852b855");
    equal(hash("abc"), "ba7816bf8f01cfea414140de5dae2223b00361a396177a9cb410ff61f20015ad");
    equal(hash("abcdbcdecdefdefgefghfghighijhijkijkljklmklmnlmnomnopnopq"),
          "248d6a61d20638b8e5c026930c3e6039a33ce45964ff2167f6ecedd419db06c1");
    equal(
        hash("abcdefghbcdefghicdefghijdefghijkefghijklfghijklmghijklmnhijklmnoijklmnopjklmnopqklmnopqrlmnopqrsmnopqrstn"
             "opqrstu"),
        "cf5b16a778af8380036ce59e7b0492370b249b11e8f07a51afac45037afee9d1");
    equal(hash(std::string(1'000'000, 'a')), "cdc76e5c9914fb9281a1c7e284d73e67f1809a48a497200e046d39ccc7112cd0");
    equal(hash("\xd3"), "28969cdfa74a12c82f3bad960b0b000aca2ac329deea5c2328ebc6f2ba9802c1");
    equal(hash(std::string(1, '\xbd')), "68325720aabd7c82f30f554b313d0570c95accbb7dc4b5aae11204c08ffe732b");
    equal(hash(std::string(55, '\0')), "02779466cdec163811d078815c633f21901413081449002f24aa3e80f0b88ef7");
    equal(hash(std::string(56, '\0')), "d4817aa5497628e7c77e6b606107042bbba3130888c5f47a375e6179be789fbb");
    equal(hash(std::string(57, '\0')), "65a16cb7861335d5ace3c60718b5052e44660726da4cd13bb745381b235a1785");
    equal(hash(std::string(64, '\0')), "f5a5fd42d16a20302798ef6ed309979b43003d2320d9f0e8ea9831a92759fb4b");
    equal(hash(std::string(1'005, 'U')), "f4d62ddec0f3dd90ea1380fa16a5ff8dc4c54b21740650f24afc4120903552b0");
    equal(hash(std::string(1'000'000, '\0')), "d29751f2649b32ff572b5e0a9f541ea660a50f94ff0beedfb0b692b924cc8025");
}

} // namespace

int main() {
    a_list_of_plants();
    a_mark_a_head_and_empty_lines();
    lines_that_are_passed_over();
    one_tongue_is_enough();
    two_names_for_one_row_are_none();
    only_what_prints();
    at_most_64_letters();
    ten_thousand_lines();
    names_of_files();
    escaping_loses_nothing();
    hashes();
    return check::passed("names");
}
