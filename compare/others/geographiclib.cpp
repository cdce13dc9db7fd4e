// Answers each line of standard input with a line, by GeographicLib::MGRS, the class behind the command GeoConvert.
//
//   read TEXT                                       zone hemisphere p easting northing of the centre; zone 0 is UPS
//   write ZONE HEMISPHERE BAND P EASTING NORTHING   the text written, the band worked out by the library
//   band  and the same fields                       the text written, the library being told a latitude amid the band
//
// Metres are told to a tenth of a micrometre. An error is told as "refused: " and its message.
#include <iostream>
#include <sstream>
#include <string>

#include <GeographicLib/MGRS.hpp>
#include <GeographicLib/UTMUPS.hpp>

#include "shown.hpp"

using GeographicLib::GeographicErr;
using GeographicLib::MGRS;
using std::string;

static string read(const string& text) {
  int zone, p;
  bool north;
  double easting, northing;
  MGRS::Reverse(text, zone, north, easting, northing, p);
  if (zone == GeographicLib::UTMUPS::INVALID) return "invalid, without an error";
  return std::to_string(zone) + (north ? " N " : " S ") + std::to_string(p) + ' ' + metres(easting) + ' ' + metres(northing);
}

// Every latitude of a band but its ends names it, since the library floors the latitude to a band.
static double latitude_amid(char band) { return -76 + 8.0 * string("CDEFGHJKLMNPQRSTUVWX").find(band); }

static string write(bool told, std::istream& fields) {
  int zone, p;
  char hemisphere, band;
  double easting, northing;
  string text;
  fields >> zone >> hemisphere >> band >> p >> easting >> northing;
  if (told) MGRS::Forward(zone, hemisphere == 'N', easting, northing, latitude_amid(band), p, text);
  else MGRS::Forward(zone, hemisphere == 'N', easting, northing, p, text);
  return shown(text);
}

static string answer(const string& request) {
  try {
    if (request.compare(0, 5, "read ") == 0) return read(request.substr(5));
    std::istringstream fields(request.substr(request.find(' ')));
    return write(request.compare(0, 5, "band ") == 0, fields);
  } catch (const GeographicErr& e) {
    return "refused: " + shown(e.what());
  }
}

int main() {
  for (string request; std::getline(std::cin, request);) std::cout << answer(request) << std::endl;
}
