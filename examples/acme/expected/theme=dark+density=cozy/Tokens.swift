import UIKit

public enum Tokens {
  public static let button_height: CGFloat = 40.0
  public static let button_icon: CGFloat = 16.25
  // omitted button_lift
  // omitted button_outline
  public static let button_pad_x: CGFloat = 20.0
  public static let button_pad_y: CGFloat = 8.0
  public static let button_radius: CGFloat = 4.0
  // omitted button_sheen
  public static let chip_height: CGFloat = 28.0
  public static let chip_icon: CGFloat = 16.25
  // omitted chip_lift
  // omitted chip_outline
  public static let chip_pad_x: CGFloat = 20.0
  public static let chip_pad_y: CGFloat = 8.0
  public static let chip_radius: CGFloat = 14.0
  // omitted chip_sheen
  public static let color_brand = UIColor(red: 0.2, green: 0.4, blue: 0.8, alpha: 1.0)
  public static let color_brand_soft = UIColor(red: 0.4, green: 0.6, blue: 1.0, alpha: 0.35)
  // omitted color_danger
  public static let color_ink = UIColor(red: 229.0/255.0, green: 232.0/255.0, blue: 238.0/255.0, alpha: 1.0)
  public static let color_paper = UIColor(red: 0.07, green: 0.07, blue: 0.1, alpha: 1.0)
  public static let color_text = UIColor(red: 229.0/255.0, green: 232.0/255.0, blue: 238.0/255.0, alpha: 1.0)
  public static let color_text_link = UIColor(red: 0.2, green: 0.4, blue: 0.8, alpha: 1.0)
  public static let color_text_on_brand = UIColor(red: 229.0/255.0, green: 232.0/255.0, blue: 238.0/255.0, alpha: 1.0)
  public static let control_height: CGFloat = 40.0
  // omitted control_lift
  // omitted control_outline
  public static let control_pad_x: CGFloat = 16.0
  public static let control_pad_y: CGFloat = 8.0
  public static let control_radius: CGFloat = 4.0
  // omitted control_sheen
  public static let field_height: CGFloat = 40.0
  // omitted field_lift
  // omitted field_outline
  public static let field_pad_x: CGFloat = 16.0
  public static let field_pad_y: CGFloat = 8.0
  public static let field_radius: CGFloat = 4.0
  // omitted field_sheen
  public static let font_leading: Double = 1.5
  public static let font_sans: String = "Acme Sans"
  public static let font_strong: Double = 600.0
  // omitted line_dashes
  public static let line_focus: CGFloat = 2.0
  public static let line_heavy: CGFloat = 3.0
  public static let line_thin: CGFloat = 1.0
  public static let motion_ease = CAMediaTimingFunction(controlPoints: 0.2, 0.0, 0.0, 1.0)
  // omitted motion_fade
  public static let motion_quick: TimeInterval = 0.12
  public static let space_gutter: CGFloat = 16.0
  public static let space_gutter_wide: CGFloat = 24.0
  public static let space_hair: CGFloat = 0.5
  public static let space_lg: CGFloat = 16.0
  public static let space_md: CGFloat = 12.0
  public static let space_none: CGFloat = 0.0
  public static let space_sm: CGFloat = 8.0
  public static let space_xs: CGFloat = 4.0
  public static let type_body_font_family: String = "Acme Sans"
  public static let type_body_font_size: CGFloat = 16.0
  public static let type_body_font_weight: Double = 400.0
  public static let type_body_letter_spacing: CGFloat = 0.0
  public static let type_body_line_height: Double = 1.5
  public static let type_title_font_family: String = "Acme Sans"
  public static let type_title_font_size: CGFloat = 28.0
  public static let type_title_font_weight: Double = 600.0
  public static let type_title_letter_spacing: CGFloat = -0.25
  public static let type_title_line_height: Double = 1.2
}
