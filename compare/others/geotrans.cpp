// Answers each line of standard input with a line, by GEOTRANS: NGA's library MSP::CCS, in Debian's libgeotranz3-dev.
//
//   read TEXT                                       zone hemisphere easting northing; zone 0 is UPS
//   write ZONE HEMISPHERE BAND P EASTING NORTHING   the text written
//   band  and the same fields                       as write: no call of this library takes a band or a latitude
//
// Metres are told to a tenth of a micrometre. An error is told as "refused: " and its message, a warning behind the answer.
// The tuples that reading returns hold no precision, so none is told.
#include <iostream>
#include <memory>
#include <sstream>
#include <string>

#include "CoordinateConversionException.h"
#include "CoordinateType.h"
#include "MGRS.h"
#include "MGRSorUSNGCoordinates.h"
#include "UPSCoordinates.h"
#include "UTMCoordinates.h"
#include "shown.hpp"

using namespace MSP::CCS;
using std::string;

static string warned(const CoordinateTuple& tuple) {
  string warning = shown(tuple.warningMessage());
  return warning.empty() ? "" : "; warns: " + warning;
}

template <class Tuple>
static string point(long zone, const Tuple& to) {
  return std::to_string(zone) + ' ' + to.hemisphere() + ' ' + metres(to.easting()) + ' ' + metres(to.northing()) + warned(to);
}

// Each of the two calls takes a text of either kind and would change it to its own kind by a projection: the one that does
// not is chosen, by the first byte that is no blank, since this library skips blanks.
static string read(MGRS& mgrs, const string& text) {
  MGRSorUSNGCoordinates from(CoordinateType::militaryGridReferenceSystem, text.c_str());
  size_t first = text.find_first_not_of(' ');
  if (first != string::npos && text[first] >= '0' && text[first] <= '9') {
    std::unique_ptr<UTMCoordinates> to(mgrs.convertToUTM(&from));
    return point(to->zone(), *to);
  }
  std::unique_ptr<UPSCoordinates> to(mgrs.convertToUPS(&from));
  return point(0, *to);
}

static string write(MGRS& mgrs, std::istream& fields) {
  long zone, p;
  char hemisphere;
  string band;
  double easting, northing;
  fields >> zone >> hemisphere >> band >> p >> easting >> northing;
  std::unique_ptr<MGRSorUSNGCoordinates> to;
  if (zone == 0) {
    UPSCoordinates from(CoordinateType::universalPolarStereographic, hemisphere, easting, northing);
    to.reset(mgrs.convertFromUPS(&from, p));
  } else {
    UTMCoordinates from(CoordinateType::universalTransverseMercator, zone, hemisphere, easting, northing);
    to.reset(mgrs.convertFromUTM(&from, p));
  }
  return shown(to->MGRSString()) + warned(*to);
}

static string answer(MGRS& mgrs, const string& request) {
  try {
    if (request.compare(0, 5, "read ") == 0) return read(mgrs, request.substr(5));
    std::istringstream fields(request.substr(request.find(' ')));
    return write(mgrs, fields);
  } catch (CoordinateConversionException& e) {
    return "refused: " + shown(e.getMessage());
  }
}

int main() {
  char wgs84[] = "WE";
  MGRS mgrs(6378137.0, 1 / 298.257223563, wgs84);
  for (string request; std::getline(std::cin, request);) std::cout << answer(mgrs, request) << std::endl;
}
