#include "sha256.h"

#include <QCryptographicHash>

namespace client {

std::string sha256(View bytes) {
    const QByteArrayView all(bytes.data(), static_cast<qsizetype>(bytes.size()));
    return QCryptographicHash::hash(all, QCryptographicHash::Sha256).toHex().toStdString();
}

} // namespace client
