"""Independent models that tests compare with: evaluation orders, decision trees and gcc."""
