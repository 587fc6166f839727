// A positional inverted index: of each word its places, as gaps in variable-length bytes, with a sample of every 64th place.
#pragma once
#include <algorithm>
#include <cstdint>
#include <vector>

class Inverted {
  public:
    Inverted(const std::vector<uint32_t> &text, uint32_t vocabulary) : words(vocabulary) {
        std::vector<std::vector<uint32_t>> places(vocabulary);
        for (size_t place = 0; place < text.size(); place++) places[text[place]].push_back(place);
        for (uint32_t word = 0; word < vocabulary; word++) {
            Posting &p = words[word];
            p.count = places[word].size();
            uint32_t last = 0;
            for (size_t i = 0; i < places[word].size(); i++) {
                if (i % sampled == 0) p.samples.push_back({places[word][i], uint32_t(p.gaps.size())});
                if (i % sampled != 0) put(p.gaps, places[word][i] - last);
                last = places[word][i];
            }
            p.gaps.shrink_to_fit();
            p.samples.shrink_to_fit();
        }
    }

    size_t space() const {
        size_t sum = words.size() * sizeof(Posting);
        for (const Posting &p : words) sum += p.gaps.size() + p.samples.size() * sizeof(Sample);
        return sum;
    }

    // Visits the places at which a phrase stands, ascending, as long as the visit says to go on.
    template <class Visit> void places(const uint32_t *phrase, uint32_t m, Visit visit) const {
        uint32_t rare = 0;
        for (uint32_t i = 1; i < m; i++)
            if (words[phrase[i]].count < words[phrase[rare]].count) rare = i;
        each(words[phrase[rare]], [&](uint32_t place) {
            if (place < rare) return true;
            bool same = true;
            for (uint32_t i = 0; same && i < m; i++) same = i == rare || has(words[phrase[i]], place - rare + i);
            return !same || visit(place - rare);
        });
    }

    uint32_t phrase(const uint32_t *phrase, uint32_t m) const {
        uint32_t count = 0;
        places(phrase, m, [&](uint32_t) { return ++count, true; });
        return count;
    }

    uint32_t neighbours(uint32_t w, uint32_t v, int d) const {
        if (words[v].count < words[w].count) std::swap(w, v), d = -d;
        uint32_t count = 0;
        each(words[w], [&](uint32_t place) {
            const int64_t other = int64_t(place) + d;
            count += other >= 0 && has(words[v], other);
            return true;
        });
        return count;
    }

  private:
    static constexpr size_t sampled = 64;
    struct Sample {
        uint32_t place, at;
    };
    struct Posting {
        uint32_t count = 0;
        std::vector<Sample> samples;
        std::vector<uint8_t> gaps;
    };
    std::vector<Posting> words;

    static void put(std::vector<uint8_t> &out, uint32_t gap) {
        for (; gap >= 128; gap >>= 7) out.push_back(gap & 127);
        out.push_back(gap | 128);
    }

    static uint32_t get(const uint8_t *&p) {
        uint32_t gap = 0, shift = 0;
        for (; *p < 128; p++, shift += 7) gap |= uint32_t(*p) << shift;
        return gap | uint32_t(*p++ & 127) << shift;
    }

    // Visits the places of a word, ascending, as long as the visit says to go on.
    template <class Visit> static void each(const Posting &p, Visit visit) {
        const uint8_t *at = p.gaps.data();
        uint32_t place = 0;
        for (uint32_t i = 0; i < p.count; i++) {
            place = i % sampled == 0 ? p.samples[i / sampled].place : place + get(at);
            if (!visit(place)) return;
        }
    }

    static bool has(const Posting &p, uint32_t place) {
        auto next = std::upper_bound(p.samples.begin(), p.samples.end(), place, [](uint32_t x, const Sample &s) { return x < s.place; });
        if (next == p.samples.begin()) return false;
        const size_t index = next - p.samples.begin() - 1;
        const uint8_t *at = p.gaps.data() + p.samples[index].at;
        uint32_t here = p.samples[index].place;
        const size_t end = std::min<size_t>(p.count, (index + 1) * sampled);
        for (size_t i = index * sampled + 1; here < place && i < end; i++) here += get(at);
        return here == place;
    }
};
