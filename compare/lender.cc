// The latitude that GeographicLib gives a point of UTM, for the places where the Rust asks its projection.
#include <GeographicLib/TransverseMercator.hpp>

extern "C" double lent_latitude(double lon0, double x, double y) {
  double latitude, longitude;
  GeographicLib::TransverseMercator::UTM().Reverse(lon0, x, y, latitude, longitude);
  return latitude;
}
