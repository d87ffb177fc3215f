/* SPDX-License-Identifier: LicenseRef-Wengeludo */
// Eigen's QR as a peer: data reconciliation in real numbers, as textbooks have it.
//
// Does: reads the file; QR of the unmetered columns of the balance matrix; the balances left without them, whose columns tell A
// from R; the least weighted squares by a QR of these balances; the unmetered flows by substitution; G from W by the rows of what
// is left free.
// Does not: ranges, whole numbers, the tie rule, the cost, the test, the sheet. Its flows are fractions.
#include <Eigen/Dense>

#include "peer.h"

namespace {

using Eigen::Dynamic;
constexpr int UNITS = peer::MAX_UNITS, STREAMS = peer::MAX_STREAMS;
using Balances = Eigen::Matrix<double, Dynamic, Dynamic, Eigen::ColMajor, UNITS, STREAMS>;
using Upright = Eigen::Matrix<double, Dynamic, Dynamic, Eigen::ColMajor, STREAMS, UNITS>;
using Vector = Eigen::Matrix<double, Dynamic, 1, Eigen::ColMajor, STREAMS, 1>;

// Below this a number is a rounding error: entries are 1 in size, or such over the root of a weight.
constexpr double NOTHING = 1e-9;

// The columns of the streams that are metered, or of those that are not; the outside's row is left out.
struct Columns {
    int index[STREAMS], count = 0;
    Balances matrix;

    Columns(const peer::Plant &plant, bool metered) {
        for (int i = 0; i < plant.count; i++)
            if (plant.streams[i].metered == metered) index[count++] = i;
        matrix.setZero(plant.units, count);
        for (int k = 0; k < count; k++) {
            const peer::Stream &s = plant.streams[index[k]];
            if (s.from > 0) matrix(s.from - 1, k) = -1;
            if (s.to > 0) matrix(s.to - 1, k) = 1;
        }
    }
};

// The metered flows of least weighted squares that keep these balances: the correction, scaled by the root of the weight, is the
// shortest vector that cancels what the readings leave.
Vector reconciled(const Balances &balances, const Vector &readings, const Vector &spread) {
    const Upright scaled = (balances * spread.asDiagonal()).transpose();
    Eigen::ColPivHouseholderQR<Upright> qr(scaled);
    const auto rank = qr.setThreshold(NOTHING).rank();
    const Vector left = qr.colsPermutation().transpose() * Vector(-(balances * readings));
    Vector correction = Vector::Zero(readings.size());
    correction.head(rank) = qr.matrixQR().topLeftCorner(rank, rank).triangularView<Eigen::Upper>().transpose().solve(left.head(rank));
    correction.applyOnTheLeft(qr.householderQ());
    return readings + spread.cwiseProduct(correction);
}

// Flows and classes of the unmetered streams: what the metered ones leave at the rows of the rank, by substitution. A stream that
// depends on one outside the rank is withheld, and so are those.
void deduce(const Eigen::ColPivHouseholderQR<Balances> &qr, const Columns &unmetered, const Vector &left, std::uint8_t *kinds,
            double *flows) {
    const auto rank = qr.rank(), free = unmetered.count - rank;
    const auto triangle = qr.matrixQR().topLeftCorner(rank, rank).triangularView<Eigen::Upper>();
    const Vector values = triangle.solve(-left.head(rank));
    const Balances depends = triangle.solve(Balances(qr.matrixQR().topRightCorner(rank, free)));
    for (int k = 0; k < unmetered.count; k++) {
        const int i = unmetered.index[qr.colsPermutation().indices()(k)];
        const bool given = k < rank && (free == 0 || depends.row(k).cwiseAbs().maxCoeff() < NOTHING);
        kinds[i] = given ? peer::GIVEN : peer::WITHHELD;
        flows[i] = k < rank ? values(k) : 0;
    }
}

}  // namespace

std::uint8_t solve_plant(const std::uint8_t *file, std::size_t length, std::uint8_t *kinds, double *flows) {
    peer::Plant plant;
    if (!peer::read(file, length, plant)) return peer::BAD_FILE;
    if (plant.ranged) return peer::NO_MEANS;
    const Columns unmetered(plant, false);
    Columns metered(plant, true);
    Eigen::ColPivHouseholderQR<Balances> qr;
    int rank = 0;
    if (unmetered.count > 0) {
        rank = static_cast<int>(qr.setThreshold(NOTHING).compute(unmetered.matrix).rank());
        metered.matrix.applyOnTheLeft(qr.householderQ().adjoint());
    }
    Vector readings(metered.count), spread(metered.count);
    for (int k = 0; k < metered.count; k++) {
        const peer::Stream &s = plant.streams[metered.index[k]];
        readings(k) = static_cast<double>(s.reading);
        spread(k) = 1 / std::sqrt(static_cast<double>(s.weight));
    }
    const auto left = metered.matrix.bottomRows(plant.units - rank);
    const Balances balances = (left.array().abs() < NOTHING).select(0, left);
    Vector adjusted = readings;
    if (metered.count > 0 && balances.rows() > 0) adjusted = reconciled(balances, readings, spread);
    for (int k = 0; k < metered.count; k++) {
        kinds[metered.index[k]] = balances.col(k).isZero(0) ? peer::AS_READ : peer::ADJUSTED;
        flows[metered.index[k]] = adjusted(k);
    }
    if (unmetered.count > 0) deduce(qr, unmetered, metered.matrix.topRows(rank) * adjusted, kinds, flows);
    return 0;
}
