// GeographicLib::MGRS behind plain calls. A text is a std::string that is made before the clock runs, as it is what Reverse
// takes. An exception is a refusal, and so is the zone INVALID, which is what INV gives.
#include <cstddef>
#include <string>

#include <GeographicLib/MGRS.hpp>
#include <GeographicLib/UTMUPS.hpp>

using GeographicLib::GeographicErr;
using GeographicLib::MGRS;
using std::string;

extern "C" const char* theirs_version() { return GEOGRAPHICLIB_VERSION_STRING; }

extern "C" const string* theirs_text(const char* bytes, std::size_t length) { return new string(bytes, length); }

// The centre in metres, and the precision, or -2 where it refuses.
extern "C" int theirs_read(const string* text, double* metres) {
  try {
    int zone, p;
    bool north;
    MGRS::Reverse(*text, zone, north, metres[0], metres[1], p, true);
    return zone == GeographicLib::UTMUPS::INVALID ? -2 : p;
  } catch (const GeographicErr&) {
    return -2;
  }
}

// Told a latitude, so that it is told as much as our writer, which is told the band; into one string, which is used again.
extern "C" int theirs_write(int zone, bool north, double easting, double northing, double latitude, int p, const char** text) {
  static string written;
  try {
    MGRS::Forward(zone, north, easting, northing, latitude, p, written);
    *text = written.data();
    return static_cast<int>(written.size());
  } catch (const GeographicErr&) {
    return -2;
  }
}
