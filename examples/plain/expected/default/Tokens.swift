import UIKit

public enum Tokens {
  public static let color_brand = UIColor(red: 0.2, green: 0.4, blue: 0.8, alpha: 1.0)
  public static let color_link = UIColor(red: 0.2, green: 0.4, blue: 0.8, alpha: 1.0)
  // omitted line_focus
  public static let space_m: CGFloat = 8.0
  public static let space_s: CGFloat = 4.0
}
